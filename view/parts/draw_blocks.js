/* Recovery blocks of one process: a bracket above its lane for each alternate, with its number. */
function drawBlocks(scene) {
  for (const span of scene.near("blocks")) {
    if (span.entered > scene.now || span.conversation >= 0 || scene.isLeftOut(span.entered)) continue;
    if (!scene.seesLane(span.process) || scene.lanes[span.process].folded) continue;
    span.tries.forEach((one, k) => { if (one.from <= scene.now) drawBracket(scene, span, one, k); });
  }
}

function drawBracket(scene, span, one, k) {
  const lane = scene.lanes[span.process], y = lane.top + Math.min(span.depth, MOST_ROWS - 1) * lane.row + 9;
  const ended = scene.known(one.to), how = ended ? one.how : "open";
  const dead = scene.isGone(span.entered) || how === "rejected" || how === "undone";
  if (state.survivors && dead) return;
  const beside = Math.min(scene.width * 0.45, scene.radius + 2);
  const left = state.survivors || k === 0 ? scene.x(span.entered) - beside : scene.x(one.from) + Math.min(2.5, scene.width / 2);
  const right = ended ? scene.x(ended) + (dead ? 0 : beside + 2) : scene.end;
  const name = dead ? " gone" : how === "accepted" ? " good" : "", foot = lane.marks + 9;
  const bracket = `M${left} ${foot}V${y}H${right}${how === "open" ? "" : `V${foot}`}`;
  scene.over.push(scene.thing(`block:${span.id}:${k}`, "", `<path class="bracket${name}" d="${bracket}"/>`));
  if (span.depth >= MOST_ROWS - 1) return;
  const from = Math.max(left, scene.leftEdge), texts = [`alternate ${one.alternate}`, String(one.alternate)];
  scene.labels.ask(dead ? "rejected" : "alternate", from + 4, y + 11, texts, `number${name}`, { most: right - from - 6 });
}
