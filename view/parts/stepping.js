/* Stepping through the run. */
function go(turn) {
  state.turn = Math.max(0, Math.min(END, turn));
  show();
}

// To a turn by its number, as a reader types it; of the idle turns at the end, to their column.
function goNumber(text) {
  const turn = Math.floor(Number(String(text).replace(/[,\s]/g, "")));
  if (Number.isFinite(turn)) go(turn > END ? END : turn); else show(true);
}

// To the turn before or behind in which the run writes something.
function goTelling(way) {
  if (way > 0) go(Model.firstBehind(run.tellingTurns, state.turn) || END);
  else go(Model.lastUpTo(run.tellingTurns, Math.min(state.turn, END) - 1));
}

// To a turn of the shown process.
function goOwn(way) {
  const { turns } = run.processes[state.process], turn = way > 0 ? Model.firstBehind(turns, state.turn) : Model.lastUpTo(turns, state.turn - 1);
  go(turn && turn <= LAST ? turn : state.turn);
}

function goParting() {
  if (PARTINGS.length) go(PARTINGS[0].turns[0]);
}

// Plays, up to the end or to a turn that answers the question that was asked.
function play() {
  if (state.playing) { clearInterval(state.playing); state.playing = 0; show(); return; }
  if (state.turn >= END) state.turn = 0;
  state.playing = setInterval(playOn, +element("speed").value);
  show();
}

function playOn() {
  if (state.turn >= END) { play(); return; }
  go(state.turn + 1);
  if (state.asked && Model.lastUpTo(state.asked.turns, state.turn) === state.turn) play();
}

function choose(process) {
  Object.assign(state, { process: (process + run.processes.length) % run.processes.length, follow: false });
  show();
}

function followTurns() { state.follow = true; show(); }
function toggleSurvivors() { state.survivors = !state.survivors; show(); }
function togglePast() { state.past = !state.past; show(true); }
function toggleHelp() { element("help").open = !element("help").open; }

function focusOn(id) {
  element(id).focus();
  element(id).select();
}

const KEYS = {
  ArrowLeft: event => event.shiftKey ? goOwn(-1) : go(state.turn - 1),
  ArrowRight: event => event.shiftKey ? goOwn(1) : go(state.turn + 1),
  ArrowUp: () => choose(state.process - 1), ArrowDown: () => choose(state.process + 1),
  Home: () => go(0), End: () => go(END), PageUp: () => goTelling(-1), PageDown: () => goTelling(1),
  " ": play, s: toggleSurvivors, c: togglePast, d: goParting, g: () => focusOn("goto"), "/": () => focusOn("find"),
  n: () => goAnswer(1), p: () => goAnswer(-1),
  "+": () => zoom(1.3), "-": () => zoom(1 / 1.3), 0: zoomWhole, "?": toggleHelp,
  Escape() {
    if (element("help").open || element("more").open) for (const id of ["help", "more"]) element(id).open = false; else forget();
    element("tip").hidden = true;
  },
};

const isTyping = target => target.tagName === "SELECT" || (target.tagName === "INPUT" && target.type !== "range");

function listenToKeys() {
  document.addEventListener("keydown", event => {
    const { tagName } = event.target;
    if (event.ctrlKey || event.metaKey || event.altKey) return;
    if (isTyping(event.target)) { if (event.key === "Escape") event.target.blur(); return; }
    if ((event.key === " " || event.key === "Enter") && (tagName === "BUTTON" || tagName === "SUMMARY")) return;
    if (!Object.hasOwn(KEYS, event.key)) return;
    event.preventDefault();
    KEYS[event.key](event);
  });
  addEventListener("pointerdown", event => { for (const id of ["help", "more"]) if (!element(id).contains(event.target)) element(id).open = false; });
}
