/* The names of the processes at the left, and how each stands. */
function drawNames(scene) {
  const { window } = scene, top = Math.max(0, window.y), high = Math.max(0, Math.min(scene.high, window.y + window.h) - top);
  const paper = `<rect class="paper" x="0" y="${top}" width="${LEFT - 4}" height="${high}"/><path class="edge" d="M${LEFT - 4} ${top}v${high}"/>`;
  return paper + scene.run.processes.map((process, p) => scene.seesLane(p) ? nameOfLane(scene, process, p) : "").join("");
}

function nameOfLane(scene, process, p) {
  const lane = scene.lanes[p], name = escaped(fitted(process.name, LEFT < 100 ? 9 : 12)), y = lane.top - 4, high = lane.bottom - lane.top + 8;
  if (lane.folded) return `<g data-lane="${p}"><text class="name folded" x="10" y="${lane.marks + 4}">${name}</text></g>`;
  const box = (style, wide) => `<rect class="${style}" x="0" y="${y}" width="${wide}" height="${high}"/>`;
  const chosen = p === state.process && !scene.file ? box("lane", LEFT - 5) + box("took", 4) : "";
  const below = (text, k) => `<text class="sub" x="10" y="${lane.marks + 14 + 12 * k}">${escaped(text)}</text>`;
  const stands = standingLines(scene, process, p).map(below);
  return `<g data-lane="${p}">${chosen}<text class="name" x="10" y="${lane.marks + 1}">${name}</text>${stands.join("")}</g>`;
}

// How a process stands, in the lines below its name.
function standingLines(scene, process, p) {
  const { is } = process.state.at(scene.now), letters = LEFT < 100 ? 12 : 15;
  if (is === "done" || is === "failed") return [is];
  if (scene.file) return [];
  const wait = scene.now > 0 ? Model.waitOf(scene.run, p, scene.now) : null, levels = process.levels.at(scene.now).length;
  if (is === "line") return ["at the test line"];
  if (wait && scene.dense) return [fitted(`waits: ${wait.name}`, 15)];
  if (wait) return ["waits for", fitted(`${wait.kind} ${wait.name}`, letters)];
  return [levels ? many(levels, "open block") : scene.now === 0 ? "has not begun" : "runs"];
}
