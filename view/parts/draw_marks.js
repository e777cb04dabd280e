/* The marks: one for each turn, by its kind. Those of turns that are not known yet are strokes. */
function drawMarks(scene) {
  const { window, width, run } = scene, strokes = scene.lanes.map(() => "");
  const first = Math.max(0, Math.floor((window.x - LEFT - 40) / width));
  const last = Math.min(scene.count - 1, Math.ceil((window.x + window.w - LEFT) / width));
  for (let column = first; column <= last; column++) {
    const turn = run.turns[scene.turnOf(column)], p = turn.process;
    if (!scene.seesLane(p)) continue;
    if (turn.number > scene.now) strokes[p] += `M${scene.x(turn.number).toFixed(1)} ${scene.lanes[p].marks - 3}v6`;
    else drawTurn(scene, turn);
  }
  scene.marks.push(strokes.map(path => path ? `<path class="future" d="${path}"/>` : "").join(""));
}

function drawTurn(scene, turn) {
  const lane = scene.lanes[turn.process], x = +scene.x(turn.number).toFixed(1), y = lane.marks;
  const radius = lane.folded ? Math.min(2.4, scene.radius) : scene.radius, isGone = scene.isGone(turn.number);
  if (turn.kind === "undone") { scene.over.push(markOf(scene, turn, crossAt(x, y, radius), "")); return; }
  scene.marks.push(markOf(scene, turn, shapeOf(scene, turn, x, y, radius), isGone ? " gone" : ""));
}

// In the page a mark has its turn's number; in a file, its words.
function markOf(scene, turn, [name, shape], gone) {
  if (scene.file) return scene.thing(`turn:${turn.number}`, "", `<${shape} class="mark ${name}${gone}"/>`);
  return `<${shape} class="mark ${name}${gone}" data-turn="${turn.number}"/>`;
}

function crossAt(x, y, radius) {
  const r = radius + 0.6;
  return ["cross", `path d="M${x - r} ${y - r}l${2 * r} ${2 * r}m0 ${-2 * r}l${-2 * r} ${2 * r}"`];
}

function shapeOf(scene, turn, x, y, r) {
  if (turn.kind === "idle") return ["idle", `circle cx="${x}" cy="${y}" r="1.4"`];
  if (turn.kind === "waits") return waitAt(turn, x, y, scene.width);
  if (turn.what[0] === "enter") return ["point", `path d="M${x - r} ${y - r - 0.6}h${r * 1.3}l${r} ${r + 0.6}l${-r} ${r + 0.6}h${-r * 1.3}z"`];
  if (turn.what[0] === "start") return ["ring", `circle cx="${x}" cy="${y}" r="${Math.max(1, r - 0.5)}"`];
  if (isTest(scene.run, turn)) return diamondAt(x, y, r + 1.4);
  if (turn.message) return triangleAt("send", x, y, r, wayOf(scene, scene.run.channels[turn.message.channel]));
  if (turn.receipt) return triangleAt("take", x, y, r, wayOf(scene, scene.run.channels[turn.receipt.channel]));
  return ["took", `circle cx="${x}" cy="${y}" r="${r}"`];
}

const diamondAt = (x, y, r) => ["holds", `path d="M${x} ${y - r}l${r} ${r}l${-r} ${r}l${-r} ${-r}z"`];

function waitAt(turn, x, y, width) {
  if (turn.what[0] === "at") return ["atline", `path d="M${x - 1.8} ${y - 4}v8m3.6 -8v8"`];
  return ["wait", width > 10 ? `path d="M${x - 4.4} ${y}h.01m4.4 0h.01m4.4 0h.01"` : `path d="M${x - 1.7} ${y}h.01m3.4 0h.01"`];
}

// A triangle that points where the message goes.
const triangleAt = (name, x, y, r, way) => [name, `path d="M${x - r - 0.4} ${y - way * r * 0.8}h${2 * r + 0.8}l${-r - 0.4} ${way * r * 1.9}z"`];
