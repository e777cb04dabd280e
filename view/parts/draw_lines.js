/* Printed lines: held from their `print` on, until they come out or are dropped. */
function drawLines(scene) {
  for (const held of scene.near("held")) {
    if (held.from <= scene.now && scene.seesLane(held.process) && !scene.lanes[held.process].folded) drawHeld(scene, held);
  }
  for (const outs of outsByTurn(scene).values()) drawOut(scene, outs);
}

function drawHeld(scene, held) {
  const to = scene.known(held.to), gone = to && held.how === "dropped";
  if (state.survivors && (gone || scene.isGone(held.from))) return;
  const x = scene.x(held.from), end = to ? scene.x(to) : scene.end, y = scene.lanes[held.process].lines;
  const square = `<rect class="square" x="${x - 4}" y="${y}" width="8" height="8" rx="1.5"/>`;
  const line = `<path class="held" d="M${x + 4} ${y + 4}H${Math.max(x + 4, end - 3)}"/>${square}`;
  const cross = gone ? `<path class="dropped" d="M${end - 3.5} ${y + 1}l6 6m0 -6l-6 6"/>` : "";
  scene.over.push(scene.thing(`held:${held.id}`, gone ? "gone" : "", line + cross));
  for (const at of gone ? [x, end] : [x]) scene.labels.mark(at - 4, y, 8, 8);
}

// The lines that come out, those of one turn and process together.
function outsByTurn(scene) {
  const found = new Map(), before = Math.ceil(240 / scene.width);
  for (const out of Model.spansOf(scene.run).outs.between(scene.seen.from - before, Math.min(scene.seen.to, scene.now))) {
    if (!scene.seesLane(out.process) || scene.lanes[out.process].folded) continue;
    const key = `${out.turn}:${out.process}`;
    if (!found.has(key)) found.set(key, []);
    found.get(key).push(out);
  }
  return found;
}

function drawOut(scene, outs) {
  const { turn, process } = outs[0], x = scene.x(turn), y = scene.lanes[process].lines, whole = outs.map(o => o.text).join(" · ");
  const next = nextPrinted(scene.run, process, turn), room = Math.min(230, (next && next <= scene.now ? scene.x(next) - 6 : Infinity) - x - 8);
  const rooms = scene.file ? [230, room, Math.min(room, scene.rightEdge - x - 9)] : [230, room];
  const texts = rooms.map(wide => fitted(whole, Math.floor(wide / 6.4))).filter(Boolean);
  scene.over.push(scene.thing(`out:${turn}:${process}`, "", `<path class="tag" d="M${x - 4} ${y}h5l4 4l-4 4h-5z"/>`));
  scene.labels.mark(x - 4, y, 9, 8);
  const turned = 16 + x - scene.x(printedFirst(scene, turn, process));
  scene.labels.ask("printed", x + 8, y + 8, texts, "printed", { font: FONTS.mono, most: room, turned });
}

// The turn in which the first of the lines was printed that come out in a turn.
function printedFirst(scene, turn, process) {
  const held = Model.spansOf(scene.run).held.between(turn, turn).filter(one => one.process === process && one.to === turn);
  return Math.min(turn, ...held.map(one => one.from));
}

// The next turn in which a process prints something, or lets a line out.
function nextPrinted(run, process, turn) {
  if (run.printing === undefined) {
    const turnsOf = p => [...run.outs.filter(o => o.process === p).map(o => o.turn), ...run.held.filter(h => h.process === p).map(h => h.from)];
    run.printing = run.processes.map((_, p) => turnsOf(p).sort((a, b) => a - b));
  }
  return Model.firstBehind(run.printing[process], turn);
}

// A text that has room for so many letters.
function fitted(text, letters) {
  if (text.length <= letters) return text;
  return letters > 3 ? text.slice(0, letters - 1) + "…" : "";
}
