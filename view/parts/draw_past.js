/* What the chosen turn rests on: all else is pale, and a cut through the lanes shows how far the share of each process reaches. */
function pastAt(run, t) {
  if (!run.cut || run.cut.t !== t) run.cut = { t, past: Model.pastOf(run, t) };
  return run.cut.past;
}

function drawPast(scene) {
  if (!state.past || state.survivors || scene.now < 1) return;
  const past = pastAt(scene.run, scene.now), cuts = past.map(u => u ? scene.x(u) + scene.width / 2 : LEFT + 4);
  const bottoms = scene.lanes.map((lane, p) => p + 1 < scene.lanes.length ? (lane.bottom + scene.lanes[p + 1].top) / 2 : scene.high);
  let veil = "", cut = "";
  cuts.forEach((x, p) => {
    const top = p ? bottoms[p - 1] : AXIS;
    veil += `M${x} ${top}H${Math.max(x, scene.wide)}V${bottoms[p]}H${x}Z`;
    cut += `${p ? "L" : "M"}${x} ${top}V${bottoms[p]}`;
  });
  scene.isPale = (x, y) => x > cuts[Math.min(cuts.length - 1, Model.countUpTo(bottoms, y))];
  scene.veil.push(`<path class="veil" d="${veil}"/><path class="cut" d="${cut}"/>`);
}
