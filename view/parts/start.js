/* The page begins. */
function setTheme(theme) {
  state.theme = theme;
  document.documentElement.dataset.theme = theme || (matchMedia("(prefers-color-scheme: dark)").matches ? "dark" : "light");
  element("theme").value = theme;
}

// What an address asks for.
function readAddress() {
  for (const part of location.hash.slice(1).split("&")) {
    const [what, value] = part.split("=");
    if (what === "turn") state.turn = value === "end" ? END : Math.max(0, Math.min(END, Math.floor(+value) || 0));
    if (what === "process" && run.numberOf.process.has(value)) Object.assign(state, { process: run.numberOf.process.get(value), follow: false });
    if (what === "survivors") state.survivors = true;
    if (what === "past") state.past = true;
    if (what === "theme" && PALETTES[value]) state.theme = value;
    if (what === "help") element("help").open = true;
  }
}

// A small run is drawn larger, as far as there is room.
function setSize() {
  const high = RUNS.reduce((sum, one) => sum + layOut(one, END, 12).high, 0), wide = layOut(run, END, 12).wide;
  const tall = Math.max(190, innerHeight * (innerWidth < 701 ? 0.36 : innerHeight < 700 ? 0.42 : RUNS.length > 1 ? 0.6 : 0.5));
  view.scale = Math.max(1, Math.min(1.3, tall * 0.7 / high, innerWidth / (wide * 1.15)));
  element("picture").style.height = `${Math.min(high * view.scale + 18, tall)}px`;
}

// What is there for all runs that the page shows.
function listen() {
  addColours();
  addDrawnStyle();
  matchMedia("(prefers-color-scheme: dark)").addEventListener("change", () => setTheme(state.theme));
  const ofPicture = [listenToPointing, listenToZooming, listenToOverview], ofPanels = [listenToAsking, listenToProcess, listenToChannels];
  for (const part of [listenToKeys, listenToControls, ...ofPicture, ...ofPanels, listenToPrinting]) part();
}

// Takes a run, in place of the one that was there: the end stays chosen, and so does a turn that is there again.
function take(texts) {
  const other = state.kept && (state.kept.trace !== texts.trace || state.kept.source !== texts.source) ? state.kept : null;
  const isAtEnd = run !== null && state.turn > 0 && state.turn === END, who = run && !state.follow ? nameOf(state.process) : "";
  takeRuns(texts, other);
  layRows();
  const process = run.numberOf.process.get(who);
  Object.assign(state, { turn: isAtEnd ? END : Math.min(state.turn, END), process: process || 0, follow: process === undefined });
  askAnew();
}

function showRun() {
  document.title = `${TITLE}: a run`;
  element("title").textContent = TITLE;
  element("slider").max = END;
  element("goto").style.width = `${String(run.count).length + 3}ch`;
  const options = run.processes.map(p => `<option value="${p.number}">${escaped(p.name)}</option>`);
  element("who").innerHTML = `<option value="-1">whose turn it is</option>${options.join("")}`;
  element("schedule-text").textContent = run.schedule.trim();
  element("drawing").setAttribute("aria-label", `${summary(END)}. The arrow keys step through it.`);
  setSize();
  measure();
  layOverview();
  drawWhole();
  show();
  showWords();
}

// Keeps the run that is shown, so that the next one is drawn beside it; or gives up the one that was kept.
function keep() {
  const { texts } = RUNS[0];
  state.kept = state.kept ? null : texts;
  take(texts);
  showRun();
}

// A page around this one tells its runs: a source, a schedule and a trace; a line that is asked for; and the theme. It shows the source itself, and
// is told where in it a turn is. The first run is shown as a whole, from its end.
function listenToPage() {
  let isListening = false;
  addEventListener("message", ({ source, data }) => {
    if (source !== parent || parent === window) return;
    if (data.theme !== undefined) setTheme(PALETTES[data.theme] ? data.theme : "");
    if (data.line !== undefined && isListening) ask("line", { line: data.line });
    if (data.trace === undefined) return;
    document.documentElement.dataset.within = "yes";
    if (element("panels").dataset.tab === "source") chooseTab("process");
    state.tell = places => source.postMessage({ places }, "*");
    take({ source: data.source, schedule: data.schedule, trace: data.trace });
    if (!isListening) {
      listen();
      state.turn = END;
      askAnew();
    }
    isListening = true;
    showRun();
  });
}

chooseTab("source");
take({ source: textOf("source"), schedule: textOf("schedule"), trace: textOf("trace") });
if (run.processes.length) {
  listen();
  readAddress();
  setTheme(state.theme);
  showRun();
} else {
  element("says").textContent = "This page has no trace: it is made by `rblview page`.";
  listenToPage();
}
document.documentElement.dataset.ready = "yes";
