/* Who waits for whom, where they wait in a ring: beside the chosen turn, in the lanes of those who wait. */
const RING = { wide: 270, middle: 135, radius: 7, letters: 100 };

function standstillOf(run, t) {
  if (!run.standstill || run.standstill.t !== t) run.standstill = { t, found: Model.standstillAt(run, t) };
  return run.standstill.found;
}

function drawRing(scene) {
  if (state.survivors || scene.now < 1 || (scene.file && scene.end > scene.rightEdge)) return;
  const found = standstillOf(scene.run, scene.now);
  if (!found) return;
  const right = Math.max(scene.end, scene.leftEdge) + 10, left = Math.max(scene.leftEdge + 4, Math.min(scene.end, scene.rightEdge) - RING.wide - 10);
  const x = right + RING.wide < scene.rightEdge ? right : left, ys = found.ring.map(p => scene.lanes[p].marks);
  const top = Math.min(...ys) - 18, high = Math.max(...ys) + 18 - top, soon = found.isBounded ? " soon" : "";
  const shapes = [`<rect class="ringpaper${soon}" x="${x}" y="${top}" width="${RING.wide}" height="${high}" rx="7"/>`];
  scene.labels.keep(x, top, RING.wide, high);
  found.waits.forEach((wait, p) => {
    if (!wait) return;
    const k = found.ring.indexOf(p), next = k >= 0 ? found.ring[(k + 1) % found.ring.length] : wait.of.find(q => found.ring.includes(q));
    if (next !== undefined && k >= 0) shapes.push(waitArrow(scene, x + RING.middle, p, next, wait, soon));
  });
  for (const p of found.ring) shapes.push(`<circle class="waiter${soon}" cx="${x + RING.middle}" cy="${scene.lanes[p].marks}" r="${RING.radius}"/>`);
  scene.veil.push(scene.thing("ring", "ringed", shapes.join("")));
}

// From one who waits to the one for whom: down at the right side, up at the left one, the further the wider.
function waitArrow(scene, x, p, q, wait, name) {
  const from = scene.lanes[p].marks, to = scene.lanes[q].marks, side = to > from ? 1 : -1, far = Math.min(44, 18 + Math.abs(to - from) * 0.09);
  const start = x + side * RING.radius * 0.8, first = from + side * RING.radius * 0.7, last = to - side * RING.radius * 0.7;
  const tip = start + side * 2, out = start + side * far;
  const line = `M${start} ${first}C${out} ${first + side * 12} ${out} ${last - side * 12} ${tip} ${last}`;
  const head = `M${tip - side} ${last + side}l${side * 9} ${-side * 2}l${-side * 5} ${-side * 7}z`, most = RING.letters - far * 0.3;
  const words = [`${wait.kind} ${wait.name}`, wait.name], text = words.find(one => widthOf(one, FONTS.bold) <= most) || fitted(wait.name, 10);
  const at = start + side * (far * 0.75 + 5), anchor = side > 0 ? "start" : "end";
  return `<path class="waitsfor${name}" d="${line}"/><path class="waitshead${name}" d="${head}"/>` +
    `<text class="ringtext${name}" x="${at}" y="${(first + last) / 2 + 4}" text-anchor="${anchor}">${escaped(text)}</text>`;
}

const WAITED = { message: "a message on", room: "room on", line: "the others at the test line of" };

function waitInWords(wait, p) {
  const from = wait.kind === "line" ? "" : `, from ${nameOf(wait.of[0])}`;
  return `${nameOf(p)} waits for ${WAITED[wait.kind]} ${wait.name}${from}`;
}

// The ring of the shown run in words, or nothing.
function ringWords(t) {
  const found = t > 0 ? standstillOf(run, t) : null;
  if (!found) return "";
  const end = found.isBounded ? "only a rejection can end it" : "none of them can ever go on";
  const others = found.waits.flatMap((wait, p) => wait && !found.ring.includes(p) && wait.of.some(q => found.ring.includes(q)) ? [nameOf(p)] : []);
  const more = others.length ? `; ${listed(others)} ${others.length === 1 ? "waits" : "wait"} for one of them` : "";
  return ` A ring since turn ${found.since}: ${found.ring.map(p => waitInWords(found.waits[p], p)).join("; ")}; ${end}${more}.`;
}
