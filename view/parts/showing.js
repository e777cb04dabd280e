/* Shows the chosen turn: the picture within its window, the sentence, and the panels. */
const view = { w: 0, h: 0, x: 0, y: 0, scale: 1, high: 0, wide: 0, layout: null, layouts: [] };
const written = new Map();

// Puts a text into an element, if it is another than before.
function setMarkup(id, markup) {
  if (written.get(id) === markup) return;
  written.set(id, markup);
  element(id).innerHTML = markup;
}

function measure() {
  const box = element("picture");
  LEFT = innerWidth < 560 ? 86 : 104;
  Object.assign(view, { w: box.clientWidth, h: box.clientHeight, x: box.scrollLeft, y: box.scrollTop });
}

// Lays the pictures of the runs, one below the other over the same turns.
function lay() {
  const width = widthNow();
  let top = 0;
  view.layouts = RUNS.map(one => {
    const layout = { ...layOut(one, state.turn, width), top };
    top += layout.high;
    return layout;
  });
  view.layout = view.layouts[0];
  view.high = top;
  view.wide = Math.max(...view.layouts.map(layout => layout.wide));
  view.x = Math.max(0, Math.min(view.x, view.wide * view.scale - view.w));
}

// Makes the picture as large as what is laid, and lets the browser scroll to its place.
function settle() {
  const { scale } = view, box = element("picture"), { style } = element("extent"), wide = `${Math.max(view.wide, view.w / scale - 2) * scale}px`;
  if (style.width !== wide) style.width = wide;
  if (style.height !== `${view.high * scale}px`) style.height = `${view.high * scale}px`;
  if (Math.abs(box.scrollLeft - view.x) > 0.5) box.scrollLeft = view.x;
  if (Math.abs(box.scrollTop - view.y) > 0.5) box.scrollTop = view.y;
}

function draw() {
  const { scale, layouts } = view, w = Math.max(200, view.w) / scale, h = Math.max(80, Math.min(view.h / scale, view.high));
  const x = view.x / scale, y = view.y / scale, isAlone = layouts.length < 2;
  const svg = element("drawing"), pictures = [], names = [];
  layouts.forEach((layout, which) => {
    const scene = new Scene(layout, Math.min(state.turn, layout.run.end), { x, y: y - layout.top, w, h, file: false });
    pictures.push(`<g transform="translate(${-x},${layout.top - y})" data-run="${which}">${drawPicture(scene)}</g>`);
    names.push(`<g transform="translate(0,${layout.top - y})" data-run="${which}">${drawNames(scene)}${isAlone ? "" : headOfRun(which, w)}</g>`);
    if (which === 0) setMarkup("axes", `<g transform="translate(${-x},0)">${drawAxis(scene)}</g>`);
  });
  setMarkup("pictures", pictures.join(""));
  setMarkup("names", names.join(""));
  setMarkup("corner", `<rect class="paper" width="${LEFT - 4}" height="${AXIS}"/><text class="sub" x="10" y="16">turn</text>`);
  for (const [name, value] of [["width", w * scale], ["height", h * scale], ["viewBox", `0 0 ${w} ${h}`]]) svg.setAttribute(name, value);
  showOverview();
}

// Above each of two runs: which it is, and how its schedule begins.
function headOfRun(which, w) {
  const { schedule } = RUNS[which], text = schedule.replace(/#.*/g, "").trim().split(/\s*\n\s*/).join(", ");
  const line = which ? `<path class="between" d="M0 0.5H${w}"/>` : "", y = AXIS + 11;
  return `${line}<text class="runname" x="${LEFT + 6}" y="${y}">${which ? "kept run" : "this run"}: ${escaped(fitted(text, 60))}</text>`;
}

// Brings the chosen turn and the shown lane into the window.
function reveal() {
  const { layout, scale } = view, lane = layout.lanes[state.process];
  const x = scale * (state.survivors || state.turn > LAST ? layout.wide : layout.x(state.turn)), left = LEFT * scale;
  if (x < view.x + left + 20) view.x = x - left - 120;
  else if (x > view.x + view.w - 30) view.x = x - view.w * 0.6;
  if ((lane.top - 8 - AXIS) * scale < view.y) view.y = (lane.top - AXIS - 12) * scale;
  else if ((lane.bottom + 8) * scale > view.y + view.h) view.y = (lane.bottom + 12) * scale - view.h;
  view.x = Math.round(Math.max(0, Math.min(view.x, view.wide * scale - view.w)));
  view.y = Math.round(Math.max(0, Math.min(view.y, view.high * scale - view.h)));
}

// Of a run that is kept, and at the end of two runs: where they part first.
function partingWords() {
  if (RUNS.length < 2 && state.kept) return " This run is kept: change the program or the schedule, and the next one is drawn beside it.";
  if (RUNS.length < 2 || state.turn < END) return "";
  if (!PARTINGS.length) return " The two runs do the same, step by step.";
  const [{ process, step, turns }] = PARTINGS;
  return ` The two runs part first in ${nameOf(process)}, at its step ${step}: in turn ${turns[0]} of this run, in turn ${turns[1]} of the kept one.`;
}

// At the opening, and at the end of a run that a page around this one shows whole.
function hintWords() {
  if (state.turn === 0 && END > 0) return " Press → (or the button ›) to go on, and the space bar to play.";
  return state.turn === END && RUNS.length < 2 && document.documentElement.dataset.within ? " The button |‹ leads to the opening, and › steps on from there." : "";
}

function showSentence() {
  const says = element("says"), turn = state.turn >= 1 && state.turn <= LAST ? run.turns[state.turn] : null;
  const t = Math.min(state.turn, run.end), ring = ringWords(Math.min(state.turn, LAST));
  says.textContent = sentence(t) + ring + partingWords() + hintWords();
  says.className = ring ? "bad" : !turn ? "" : turn.kind === "undone" ? "bad" : turn.said.length ? "good" : "";
  says.setAttribute("aria-live", state.playing ? "off" : "polite");
}

// The address tells the turn, the process and the mode, so that a moment can be linked to: a while after the last step, since it takes its time.
let addressTimer = 0;

function showAddressSoon() {
  clearTimeout(addressTimer);
  addressTimer = setTimeout(showAddress, 300);
}

function showAddress() {
  const turn = state.turn === END ? "end" : state.turn, who = state.follow ? "" : `process=${nameOf(state.process)}`;
  const parts = [`turn=${turn}`, who, state.survivors ? "survivors" : "", state.past ? "past" : "", state.theme ? `theme=${state.theme}` : ""];
  try { history.replaceState(null, "", "#" + parts.filter(Boolean).join("&")); } catch (refused) { /* a browser may refuse it to a file */ }
}

function show(stay) {
  element("tip").hidden = true;
  if (state.follow && state.turn >= 1 && state.turn <= LAST) state.process = run.turns[state.turn].process;
  lay();
  if (!stay) reveal();
  settle();
  draw();
  showSentence();
  showAsked();
  showControls();
  showAddressSoon();
  const scroll = showSource();
  showProcess();
  showChannels();
  showPrinted();
  scroll();
  const box = element("printedbox");
  if (!element("inwords").open) box.scrollTop = box.scrollHeight;
}
