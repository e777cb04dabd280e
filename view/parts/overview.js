/* The whole run above the lanes, where it has no room in them: how much was rejected, waited and passed, and the window that the picture shows. */
const OVERVIEW = { high: 54, reject: [5, 20], waits: [27, 37], pass: [40, 52], least: 12, grip: 9 };
const overview = { w: 0, isShown: false, frame: null };

const placeInOverview = turn => LEFT + 10 + (overview.w - LEFT - 24) * turn / Math.max(1, LAST);
const turnInOverview = x => Math.max(0, Math.min(LAST, (x - LEFT - 10) * LAST / Math.max(1, overview.w - LEFT - 24)));

// A run that can be read as a whole needs none, and a page that shows two runs has no room for one.
function layOverview() {
  overview.w = view.w;
  overview.isShown = LAST > 0 && RUNS.length === 1 && LAST * READABLE > view.w / view.scale - LEFT - 40;
  element("overview").toggleAttribute("hidden", !overview.isShown);
}

// What does not change with the window: bars of a few pixels for each kind, the greatest as high as its row.
function drawOverview() {
  const wide = overview.w - LEFT - 24, n = Math.max(1, Math.floor(wide / (wide < 500 ? 2 : 3))), size = LAST / n, { all } = Model.kindsOf(run);
  const bars = { x: LEFT + 10, step: wide / n }, rows = [["reject", "full bad"], ["waits", "full waits"], ["pass", "full good"]];
  const shapes = rows.map(([kind, name]) => {
    const [top, foot] = OVERVIEW[kind], counts = Model.countsOf(all[kind], 0, size, n), most = kind === "waits" ? size : Math.max(4, ...counts);
    const height = count => count ? Math.max(2.5, (foot - top) * Math.sqrt(count / most)) : 0;
    const text = `<text class="sub" x="10" y="${foot - 2}">${{ reject: "rejected", waits: "waited", pass: "passed" }[kind]}</text>`;
    return text + barsOf(name, { ...bars, widest: 9 }, new Array(n).fill(foot), counts.map(count => Math.min(foot - top, height(count))));
  });
  const strokes = (turns, shape) => turns.map(turn => `M${placeInOverview(turn).toFixed(1)} ${shape}`).join("");
  const errors = all.error.length ? `<path class="errorstroke" d="${strokes(all.error, "2v50")}"/>` : "";
  return shapes.join("") + errors + (state.asked ? `<path class="askedstroke" d="${askedStrokes(n)}"/>` : "");
}

// A stroke for each stretch in which there is an answer to the question.
function askedStrokes(n) {
  const counts = Model.countsOf(state.asked.turns, 0, LAST / n, n);
  return counts.map((count, k) => count ? `M${placeInOverview((k + 0.5) * LAST / n).toFixed(1)} 0v4` : "").join("");
}

function drawWhole() { if (overview.isShown) setMarkup("whole", drawOverview()); }

// The window, what lies beside it, and the chosen turn.
function showOverview() {
  if (!overview.isShown) return;
  const svg = element("overview"), { from, to } = windowOfPicture(), { high, least, grip } = OVERVIEW;
  const middle = (placeInOverview(from) + placeInOverview(to)) / 2, half = Math.max(least, placeInOverview(to) - placeInOverview(from)) / 2;
  const left = middle - half, right = middle + half, now = placeInOverview(Math.min(state.turn, LAST));
  overview.frame = { left, right };
  svg.setAttribute("aria-valuetext", `turns ${Math.round(from)} to ${Math.round(to)} of ${LAST}`);
  svg.setAttribute("aria-valuemax", LAST);
  svg.setAttribute("aria-valuenow", Math.round((from + to) / 2));
  const grips = [left - grip, right].map(x => `M${x} 16h${grip}v22h${-grip}zM${x + 3} 22v10M${x + 6} 22v10`).join("");
  setMarkup("overwindow", `<path class="shade" d="M${LEFT} 0H${left}V${high}H${LEFT}zM${right} 0H${overview.w}V${high}H${right}z"/>` +
    `<rect class="frame" x="${left}" y="1" width="${right - left}" height="${high - 2}" rx="2"/><path class="grips" d="${grips}"/>` +
    `<path class="nowmark" d="M${now} ${high}V0m-4 0h8l-4 5z"/>`);
}

// What of the window a place takes hold of.
function gripAt(x) {
  const { left, right } = overview.frame, { grip } = OVERVIEW;
  if (x >= left - grip - 4 && x <= left + Math.min(3, (right - left) / 4)) return "from";
  if (x <= right + grip + 4 && x >= right - Math.min(3, (right - left) / 4)) return "to";
  return x > left && x < right ? "both" : "new";
}

// How the window lies once what was taken hold of at `drag.turn` is at `turn`.
function draggedWindow(drag, turn) {
  const { grip, from, to } = drag, by = turn - drag.turn;
  if (grip === "new") return [Math.min(drag.turn, turn), Math.max(drag.turn, turn)];
  if (grip === "from") return [Math.min(to - 1, from + by), to];
  if (grip === "to") return [from, Math.max(from + 1, to + by)];
  const least = Math.max(-from, Math.min(by, LAST - to));
  return [from + least, to + least];
}

function listenToOverview() {
  const svg = element("overview"), at = event => event.clientX - svg.getBoundingClientRect().left;
  let drag = null;
  svg.addEventListener("pointerdown", event => {
    if (event.button !== 0) return;
    svg.setPointerCapture(event.pointerId);
    drag = { x: at(event), turn: turnInOverview(at(event)), grip: gripAt(at(event)), isMoved: false, ...windowOfPicture() };
  });
  svg.addEventListener("pointermove", event => {
    if (!drag) { svg.style.cursor = { from: "ew-resize", to: "ew-resize", both: "grab", new: "crosshair" }[gripAt(at(event))]; return; }
    drag.isMoved = drag.isMoved || Math.abs(at(event) - drag.x) > 3;
    if (drag.isMoved) showWindow(...draggedWindow(drag, turnInOverview(at(event))));
  });
  svg.addEventListener("pointerup", () => {
    if (drag && !drag.isMoved && drag.grip === "new") { const half = (drag.to - drag.from) / 2; showWindow(drag.turn - half, drag.turn + half); }
    drag = null;
  });
  svg.addEventListener("pointercancel", () => { drag = null; });
  svg.addEventListener("dblclick", event => go(Math.round(turnInOverview(at(event)))));
  svg.addEventListener("keydown", event => {
    const { from, to } = windowOfPicture(), step = (to - from) / 8;
    const ways = { ArrowLeft: [-step, -step], ArrowRight: [step, step], ArrowUp: [step, -step], ArrowDown: [-step, step] };
    if (!Object.hasOwn(ways, event.key) || event.shiftKey) return;
    showWindow(from + ways[event.key][0], to + ways[event.key][1]);
    event.preventDefault();
    event.stopPropagation();
  });
}
