/* The controls: what they show, and what they do. */
function showControls() {
  element("slider").value = state.turn;
  element("slider").setAttribute("aria-valuetext", element("says").textContent);
  if (document.activeElement !== element("goto")) element("goto").value = shownTurn(state.turn);
  element("of").textContent = `of ${grouped(Math.max(...RUNS.map(one => one.count)))}`;
  element("who").value = state.follow ? "-1" : state.process;
  element("whose").textContent = nameOf(state.process);
  element("survivors").setAttribute("aria-pressed", state.survivors);
  element("past").setAttribute("aria-pressed", state.past);
  element("fit").setAttribute("aria-pressed", state.width === "whole");
  element("parting").hidden = RUNS.length < 2;
  element("keep").hidden = !document.documentElement.dataset.within;
  element("keep").setAttribute("aria-pressed", state.kept !== null);
  element("play").textContent = state.playing ? "❚❚" : "▶";
  element("play").setAttribute("aria-label", state.playing ? "stop" : "play");
}

const BUTTONS = {
  first: () => go(0), last: () => go(END), back: () => go(state.turn - 1), on: () => go(state.turn + 1), telledbefore: () => goTelling(-1),
  telledbehind: () => goTelling(1), play, survivors: toggleSurvivors, past: togglePast, keep, parting: goParting, wider: () => zoom(1.3),
  narrower: () => zoom(1 / 1.3), fit: zoomWhole, save, print: () => print(),
};

function listenToControls() {
  for (const [id, does] of Object.entries(BUTTONS)) element(id).addEventListener("click", does);
  element("slider").addEventListener("input", event => go(+event.target.value));
  element("goto").addEventListener("change", event => goNumber(event.target.value));
  element("who").addEventListener("change", event => event.target.value === "-1" ? followTurns() : choose(+event.target.value));
  element("theme").addEventListener("change", event => { setTheme(event.target.value); show(true); });
  element("inwords").addEventListener("toggle", showWords);
  for (const id of ["printed", "wordlist"]) {
    element(id).addEventListener("click", event => {
      const row = event.target.closest("[data-turn]");
      if (row && +row.dataset.turn >= 0) go(+row.dataset.turn);
    });
  }
  listenToTabs();
}

// On a narrow page the panels are tabs: one is seen at a time.
function chooseTab(name) {
  element("panels").dataset.tab = name;
  for (const tab of document.querySelectorAll("[data-tab-of]")) {
    tab.setAttribute("aria-selected", tab.dataset.tabOf === name);
    tab.tabIndex = tab.dataset.tabOf === name ? 0 : -1;
  }
}

function listenToTabs() {
  const tabs = () => [...document.querySelectorAll("[data-tab-of]")].filter(tab => tab.offsetParent !== null);
  element("tabs").addEventListener("click", event => { const tab = event.target.closest("[data-tab-of]"); if (tab) chooseTab(tab.dataset.tabOf); });
  element("tabs").addEventListener("keydown", event => {
    const way = { ArrowLeft: -1, ArrowRight: 1 }[event.key];
    if (!way) return;
    const all = tabs(), next = all[(all.indexOf(event.target) + way + all.length) % all.length];
    chooseTab(next.dataset.tabOf);
    next.focus();
    event.preventDefault();
    event.stopPropagation();
  });
}
