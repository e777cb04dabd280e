/* The ways back: from a rejection to the recovery point, and the turns between struck out. */
function drawReturns(scene) {
  if (state.survivors) return;
  for (const back of scene.near("returns")) {
    if (back.turn > scene.now || !scene.seesLane(back.process)) continue;
    strike(scene, back);
    if (!scene.lanes[back.process].folded) drawReturn(scene, back);
  }
}

function drawReturn(scene, back) {
  const lane = scene.lanes[back.process], y = lane.rails + 3 + back.row * 6, gone = scene.isGone(back.to) ? " gone" : "";
  const from = scene.x(back.turn), to = scene.x(back.to) + 1.5, fresh = back.turn === scene.now && scene.turn <= scene.run.last ? " new" : "";
  const rail = `M${from} ${lane.marks + 7}V${y}H${to + 3}Q${to} ${y} ${to} ${y - 3}V${lane.marks + 12}`;
  scene.over.push(scene.thing(`return:${back.id}`, "", `<path class="return${gone}${fresh}" d="${rail}"/>` +
    `<path class="head${gone}" d="M${to} ${lane.marks + 6}l-3.6 7h7.2z"/>`));
}

function strike(scene, back) {
  if (!back.undone.length) return;
  const first = back.undone[0], last = back.undone[back.undone.length - 1], half = scene.width * 0.42;
  const to = scene.x(last) + (last === back.turn ? 0 : half);
  scene.over.push(`<path class="strike" d="M${scene.x(first) - half} ${scene.lanes[back.process].marks}H${to}"/>`);
}
