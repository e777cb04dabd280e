/* What frames the picture: the numbers of the turns above, the names of the processes at the left, and the chosen turn. */
function drawAxis(scene) {
  const { x: left, w: wide } = scene.window, paper = `<rect class="paper" x="${left}" y="0" width="${wide}" height="${AXIS}"/>`;
  const shapes = [`${paper}<path class="tick" d="M${left} ${AXIS - 0.5}H${left + wide}"/>`];
  const box = grouped(shownTurn(scene.turn)).length * 7 + 8, now = scene.file ? null : placeOfBox(scene, box), taken = [];
  if (now !== null) taken.push([now - box / 2 - 5, now + box / 2 + 5]);
  let ticks = "";
  for (const turn of numberedTurns(scene)) {
    const x = scene.x(turn), half = widthOf(grouped(turn), FONTS.plain) / 2;
    if (!scene.columns) ticks += `M${x.toFixed(1)} ${AXIS - 5}v4`;
    if (x + half > scene.rightEdge - 2 || x - half < scene.leftEdge - (scene.file ? 0 : 6)) continue;
    if (taken.some(([from, to]) => from < x + half + 3 && x - half - 3 < to)) continue;
    taken[now === null ? 0 : 1] = [x - half, x + half];
    shapes.push(`<text class="axis" x="${x.toFixed(1)}" y="${AXIS - 10}">${grouped(turn)}</text>`);
  }
  shapes.push(`<path class="tick" d="${ticks}"/>`);
  if (scene.columns) for (const column of columnsSeen(scene)) shapes.push(gapBefore(scene, column, scene.x(scene.turnOf(column))));
  if (now === null) return shapes.join("");
  const text = `<text class="nowtext" x="${now}" y="15.5">${grouped(shownTurn(scene.turn))}</text>`;
  return `${shapes.join("")}<rect class="nowbox" x="${now - box / 2}" y="4" width="${box}" height="15" rx="3"/>${text}`;
}

// The columns that are seen, and the turns that are numbered.
function columnsSeen(scene) {
  const first = Math.max(0, Math.floor((scene.window.x - LEFT - 20) / scene.width));
  const last = Math.min(scene.count - 1, Math.ceil((scene.window.x + scene.window.w - LEFT) / scene.width));
  return Array.from({ length: Math.max(0, last - first + 1) }, (_, k) => first + k);
}

function numberedTurns(scene) {
  if (scene.columns) return columnsSeen(scene).map(column => scene.turnOf(column));
  const { from, to } = scene.seen, step = stepOfTicks((12 + 7 * grouped(scene.run.last).length) / scene.width);
  const found = step > 2 && from < 2 && to > 0 ? [1] : [];
  for (let turn = Math.max(step, Math.ceil(from / step) * step); turn <= to; turn += step) found.push(turn);
  return found;
}

// 1, 2 or 5 times a power of ten.
function stepOfTicks(least) {
  const power = 10 ** Math.floor(Math.log10(Math.max(1, least)));
  return [1, 2, 5, 10].find(n => n * power >= least) * power;
}

// Where the number of the chosen turn stands, and the middle of its box: within the window, and null where that turn is not seen.
function placeOfNow(scene) {
  if (state.survivors) return scene.right + 20;
  if (scene.turn > scene.run.last) return scene.right + roomBehind(scene.run, scene.width) + 37;
  return scene.turn === 0 ? LEFT + 10 : scene.x(scene.turn);
}

function placeOfBox(scene, box) {
  const place = placeOfNow(scene), left = scene.leftEdge - 4, right = scene.rightEdge;
  return place < left || place > right + 20 ? null : Math.max(left + box / 2, Math.min(place, right - box / 2 - 1));
}

// Two strokes where turns are left out before a survivor.
function gapBefore(scene, column, x) {
  const turn = scene.columns[column], before = column ? scene.columns[column - 1] : 0;
  if (turn === before + 1 || scene.width < 6) return "";
  const at = x - scene.width / 2, area = `<rect x="${at - 4}" y="${AXIS - 9}" width="8" height="10" fill="none" pointer-events="all"/>`;
  return scene.thing(`gap:${before + 1}:${turn - 1}`, "", `${area}<path class="gap" d="M${at - 3} ${AXIS}l3 -7m1 7l3 -7"/>`);
}

// The column of the chosen turn, and a line behind which nothing is known yet.
function drawNow(scene) {
  if (scene.file || state.survivors || scene.turn > scene.run.last) return;
  const high = scene.high - AXIS, wide = Math.max(1, scene.width), x = scene.x(scene.turn) - wide / 2;
  if (scene.turn > 0) scene.under.push(`<rect class="nowcolumn" x="${x}" y="${AXIS}" width="${wide}" height="${high}"/>`);
  scene.over.push(`<path class="now" d="M${scene.turn === 0 ? LEFT + 10 : scene.end} 19V${scene.high}"/>`);
}

// The idle turns at the end are one column.
function drawTail(scene) {
  const { last, end, count } = scene.run;
  if (end === last || state.survivors) return;
  const x = scene.right + roomBehind(scene.run, scene.width), { tail } = roomOf(scene.run);
  if (!scene.sees(x, x + tail)) return;
  scene.under.push(`<rect class="tail" x="${x}" y="${AXIS}" width="${tail}" height="${scene.high - AXIS}"/>`);
  if (scene.turn <= last && !scene.file) return;
  const text = (words, y) => `<text class="sub" x="${x + 5}" y="${y}">${words}</text>`;
  scene.over.push(text(`${grouped(last + 1)} to ${grouped(count)}`, scene.high - 20) + text("idle", scene.high - 8));
}
