/* Where there is no room for marks: how much of each stretch of a lane stands, waited or was undone, and where it went back. */
const STRETCH = 2;                      // how wide a stretch is at least, in pixels
const TURNS_IN_STRETCH = 3;             // and how many of its lane's own turns it has, on the average

// How many turns a stretch has: a power of two, so that stretches stay where they are when the picture is scrolled.
function stretchOf(run, width, process) {
  const own = Model.kindsOf(run).own[process], count = own.stood.length + own.undone.length + own.waits.length;
  const least = Math.max(STRETCH / width, TURNS_IN_STRETCH * Math.max(1, own.last) / Math.max(1, count));
  return 2 ** Math.ceil(Math.log2(least));
}

function drawDensities(scene) {
  scene.run.processes.forEach((_, p) => { if (scene.seesLane(p)) drawDensity(scene, p); });
  if (!scene.file) scene.over.push(keyOfDensities(scene));
}

function drawDensity(scene, p) {
  const lane = scene.lanes[p], { last } = Model.kindsOf(scene.run).own[p], size = stretchOf(scene.run, scene.width, p);
  const from = Math.floor(scene.seen.from / size) * size, to = Math.min(scene.now, scene.seen.to, last);
  const n = Math.max(0, Math.ceil((to - from) / size));
  const high = lane.folded ? 8 : Math.min(40, lane.bottom - lane.top - 20), foot = lane.bottom - (lane.folded ? 0 : 2), above = lane.folded ? 3 : 8;
  const later = scene.x(Math.min(scene.now, last)) + scene.width / 2, wanted = Math.max(later, scene.leftEdge);
  if (scene.now < scene.run.last) scene.marks.push(`<path class="later" d="M${wanted} ${foot - high / 2}H${Math.max(wanted, scene.right)}"/>`);
  if (n === 0) return;
  const bars = { x: scene.x(from + 1) - scene.width / 2, step: size * scene.width, end: later };
  const shares = Model.sharesOf(scene.run, p, from, size, n, scene.now);
  const all = shares.stood.map((count, k) => count + shares.waits[k] + shares.undone[k]);
  let feet = new Array(n).fill(foot);
  for (const [name, counts] of [["full", shares.stood], ["full waits", shares.waits], ["full gone", shares.undone]]) {
    const heights = counts.map((count, k) => all[k] ? high * count / all[k] : 0);
    scene.marks.push(barsOf(name, bars, feet, heights));
    feet = feet.map((y, k) => y - heights[k]);
  }
  const most = Math.max(4, ...shares.returns), tops = shares.returns.map(count => count ? 3 + above * Math.sqrt(count / most) : 0);
  scene.over.push(barsOf("full back", { ...bars, widest: 9 }, new Array(n).fill(foot - high - 1), tops));
}

// One path for all stretches of a kind: bars that stand on their feet, each at least a pixel and a bit wide, so that none is lost.
function barsOf(name, { x, step, end = Infinity, widest = Infinity }, feet, heights) {
  const wide = Math.min(widest, Math.max(1.2, step)), beside = Math.max(0, (step - wide) / 2);
  let path = "";
  heights.forEach((height, k) => {
    const from = x + k * step + beside, to = Math.min(from + wide, end);
    if (height > 0.2 && to > from) path += `M${from.toFixed(1)} ${feet[k].toFixed(1)}v${(-height).toFixed(1)}H${to.toFixed(1)}v${height.toFixed(1)}`;
  });
  return path ? `<path class="${name}" d="${path}"/>` : "";
}

// What the colours of a lane mean, at the foot of the picture.
function keyOfDensities(scene) {
  let x = scene.leftEdge + 10;
  return [["full", "stands"], ["full waits", "waited"], ["full gone", "undone"], ["full back", "went back"]].map(([name, text]) => {
    const box = `<rect class="${name}" x="${x}" y="${scene.high - 13}" width="9" height="9"/>`, at = x + 13;
    x += 28 + widthOf(text, FONTS.plain);
    return `${box}<text class="sub" x="${at}" y="${scene.high - 5}">${text}</text>`;
  }).join("");
}

// Fields of conversations without their lines: those that lie closer than can be told apart are one.
function drawFieldsFar(scene) {
  const open = new Map(), done = [];
  if (!scene.run.sessions.length || scene.width * scene.run.last / scene.run.sessions.length < 4) return;
  for (const { from, end, depth, conversation } of scene.near("sessions")) {
    const x = scene.x(from), to = scene.known(end) ? scene.x(end) : scene.end, last = open.get(conversation);
    if (last && x - last.to < 1) { last.to = Math.max(last.to, to); continue; }
    const field = { conversation, depth, from: x, to };
    open.set(conversation, field);
    done.push(field);
  }
  for (const depth of [0, 1, 2]) {
    const path = done.filter(field => field.depth % 3 === depth).map(field => fieldFar(scene, field)).join("");
    if (path) scene.under.push(`<path class="field${depth}" d="${path}"/>`);
  }
}

const fieldFar = (scene, { conversation, from, to }) => scene.run.conversations[conversation].members.map(p =>
  `M${from.toFixed(1)} ${scene.lanes[p].top}H${to.toFixed(1)}V${scene.lanes[p].bottom}H${from.toFixed(1)}Z`).join("");
