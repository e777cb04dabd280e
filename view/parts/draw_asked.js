/* The turns that answer the question that was asked, and where two runs part. */
function drawAsked(scene) {
  if (!state.asked || scene.run !== run) return;
  const { turns } = state.asked;
  let path = "", before = -9;
  for (let k = Model.countUpTo(turns, Math.max(0, scene.seen.from - 1)); k < turns.length && turns[k] <= scene.seen.to; k++) {
    const turn = scene.run.turns[turns[k]], x = scene.x(turns[k]);
    if (turn.process < 0 || x - before < 0.8 || (state.survivors && placeAmong(scene.columns, turns[k]) % 1)) continue;
    const lane = scene.lanes[turn.process];
    path += scene.isFar ? `M${x.toFixed(1)} ${lane.top + 5}l-3 -6h6z` : `M${x.toFixed(1)} ${lane.marks + scene.radius + 3}l-4 6.5h8z`;
    before = x;
  }
  if (path) scene.over.push(`<path class="asked" d="${path}"/>`);
}

function drawPartings(scene) {
  const which = RUNS.indexOf(scene.run);
  PARTINGS.forEach((parting, k) => {
    const turn = parting.turns[which], p = scene.run.numberOf.process.get(RUNS[0].processes[parting.process].name), lane = scene.lanes[p];
    const x = scene.x(turn), name = k ? "parting" : "parting first";
    if (turn > scene.now || !scene.sees(x, x) || !scene.seesLane(p)) return;
    const box = `<rect class="${name}" x="${x - 8}" y="${lane.marks - 11}" width="16" height="22" rx="4"/>`;
    scene.over.push(scene.thing(`parting:${k}`, "", `${box}<path class="${name}" d="M${x} ${lane.top - 3}V${lane.marks - 11}"/>`));
    const texts = k ? ["differs from here", "differs", "≠"] : ["first difference", "first", "≠"];
    scene.labels.ask("parting", x + 11, lane.top + 2, texts, "partingtext");
  });
}
