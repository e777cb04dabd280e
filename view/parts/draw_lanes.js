/* The lanes: a line for each process, until it is done or has failed. */
function drawLanes(scene) {
  scene.run.processes.forEach((process, p) => {
    if (!scene.seesLane(p)) return;
    const lane = scene.lanes[p], { window } = scene;
    if (p === state.process && !scene.file) {
      scene.under.push(`<rect class="lane" x="${window.x}" y="${lane.top - 4}" width="${window.w}" height="${lane.bottom - lane.top + 8}"/>`);
    }
    if (scene.isFar) return;
    const from = Math.max(LEFT + 4, window.x), to = Math.max(from, Math.min(endOfLane(scene, process), window.x + window.w));
    scene.marks.push(`<path class="base" d="M${from} ${lane.marks}H${to}"/>`);
  });
}

const endedIn = (scene, process) => [process.doneIn, process.failedIn].find(turn => turn !== undefined && turn <= scene.now);

function endOfLane(scene, process) {
  const ended = endedIn(scene, process);
  if (ended === undefined) return state.survivors ? scene.end : scene.wide;
  return state.survivors && !scene.columns.includes(ended) ? lastOf(scene, process) : scene.x(ended);
}

// Where the last column of a process lies among the survivors.
function lastOf(scene, process) {
  const last = scene.columns.findLast(turn => scene.run.turns[turn].process === process.number);
  return last === undefined ? LEFT + 10 : scene.x(last);
}

/* Who is done, and who has failed. */
function drawEnds(scene) {
  scene.run.processes.forEach((process, p) => {
    const ended = endedIn(scene, process);
    if (ended === undefined || !scene.seesLane(p)) return;
    const lane = scene.lanes[p], x = endOfLane(scene, process) + scene.edge + 5;
    if (!scene.sees(x, x + 60)) return;
    if (process.failedIn === ended) {
      scene.labels.ask("end", x, lane.marks + 4, [`failed (${process.state.at(scene.now).cause})`, "failed", "✗"], "failed");
      return;
    }
    scene.over.push(`<path class="finish" d="M${x} ${lane.marks - 7}v14"/>`);
    if (!lane.folded) scene.labels.ask("end", x + 5, lane.marks + 4, ["done"], "number");
  });
}
