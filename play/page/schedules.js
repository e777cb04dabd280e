/* All schedules of the program: what it can come to, and a schedule of each outcome. They are looked for in a thread of their own, so that the
   page and its runs go on while that takes minutes. */
const MOST_OUTCOMES = 500;
let searcher = null, search = null;

// What is said of the search, and whether it goes on.
function saySearch(says, isBusy) {
  const button = element("explore");
  element("searched").textContent = says;
  button.textContent = isBusy ? "Stop" : "Explore";
  button.setAttribute("aria-label", isBusy ? "Stop the search" : "Explore all schedules");
}

function explore(program, ...number) {
  if (searcher.isBusy) searcher.stop();
  return searcher.ask("rblview", ["explore", "program", ...number], [program]);
}

// A search is of no use once its program is another.
function leaveSearch(program) {
  if (!search || search.program === program) return;
  searcher.stop();
  search = null;
}

function stopSearch() {
  if (searcher.isBusy) searcher.stop();
}

function exploreOrStop() {
  if (searcher.isBusy) return stopSearch();
  search = null;
  return fillTab(current);
}

// What `explore` writes: its first two lines in words, and each outcome.
function searchInWords(written) {
  const [, worlds, turns, how, ends] = /^states (\d+) turns (\d+) (\w+)\n(.*)/.exec(written);
  const counts = `${many(+worlds, "world")}, ${many(+turns, "turn")}`;
  const found = how === "complete" ? `The search is complete: ${counts}.` : `The search was stopped at ${counts}: outcomes may be missing.`;
  return `${found} ${ends === "ends always" ? "It comes to rest, whatever the schedule." : "Whether it always comes to rest is not known."}`;
}

function outcomesIn(written) {
  const parts = written.split(/^outcome (\d+) (ended|stuck) after (\d+)\n/m), outcomes = [];
  for (let at = 1; at < parts.length; at += 4) {
    const [number, word, length, text] = parts.slice(at, at + 4);
    outcomes.push({ number, word, length: +length, lines: text.trimEnd().split("\n") });
  }
  return outcomes;
}

const styleOfLine = (line, isCommon) => isCommon ? "common" : /^\w+ failed/.test(line) ? "failed" : "own";

// An outcome: the lines that not all outcomes have stand out.
function cardOf({ number, word, length, lines }, isCommon) {
  const card = made("li"), button = made("button", {}, `${number} `), text = made("pre");
  button.append(made("span", { class: word }, word), ` after ${many(length, "turn")}`);
  button.addEventListener("click", () => chooseOutcome(number));
  text.append(...lines.map(line => made("span", { class: styleOfLine(line, isCommon(line)) }, `${line}\n`)));
  card.append(button, text);
  return card;
}

function showOutcomes(outcomes) {
  const counts = new Map();
  for (const line of outcomes.flatMap(({ lines }) => lines)) counts.set(line, (counts.get(line) || 0) + 1);
  const isCommon = line => outcomes.length > 1 && counts.get(line) === outcomes.length;
  const cards = outcomes.slice(0, MOST_OUTCOMES).map(one => cardOf(one, isCommon)), left = outcomes.length - cards.length;
  if (left > 0) cards.push(made("li", { class: "note" }, `${many(left, "outcome")} more in the file that Save makes`));
  element("outcomes").replaceChildren(...cards);
  element("outcomes").inert = false;
}

// The outcome whose schedule stands in the editor.
function markOutcome() {
  for (const card of element("outcomes").children) card.removeAttribute("aria-current");
  const chosen = [...search.schedules].find(([, schedule]) => schedule === textIn("schedule"));
  if (chosen) element("outcomes").children[chosen[0] - 1]?.setAttribute("aria-current", true);
}

async function fillSchedules(tab, run) {
  const { program } = run.texts, panel = element(`panel-${tab.id}`);
  if (!search) {
    search = { program, told: explore(program), isShown: false, schedules: new Map(), wanted: "" };
    panel.classList.add("old");
    element("outcomes").inert = true;
    saySearch("Looking at all schedules: this can take minutes.", true);
  }
  const mine = search, told = await mine.told;
  if (mine !== search) return;
  if (!mine.isShown) showSearch(tab, told);
  markOutcome();
}

function showSearch(tab, told) {
  const written = told.status === 0 ? textOfBytes(told.out) : "", outcomes = outcomesIn(written);
  search.isShown = true;
  search.says = written && `${many(outcomes.length, "outcome")}. ${searchInWords(written)}`;
  saySearch(search.says, false);
  showTold(tab, told);
  showOutcomes(outcomes);
  const text = element("panel-schedules").querySelector("pre");
  text.hidden = written !== "";
  if (told.status === 5) text.textContent = "There is not enough memory for this search.";
}

// Opens a shortest schedule of an outcome, and draws its run. The last outcome that was chosen counts.
async function chooseOutcome(number) {
  const mine = search;
  if (!mine || mine.wanted === number) return;
  mine.wanted = number;
  if (mine.schedules.has(number)) stopSearch();
  else {
    saySearch(`Looking for a schedule of outcome ${number}.`, true);
    const told = await explore(mine.program, number);
    if (mine !== search || mine.wanted !== number) return;
    if (told.status === 0) mine.schedules.set(number, textOfBytes(told.out));
    else saySearch(outcomeInWords(told, null), false);
  }
  mine.wanted = "";
  if (mine.schedules.has(number)) openSchedule(mine, mine.schedules.get(number));
}

function openSchedule({ program, says }, schedule) {
  saySearch(says, false);
  if (program !== textIn("program")) return;
  chooseTab(TABS[0]);
  element("tab-picture").focus();
  forgetLink();
  notice("");
  putTexts({ schedule });
  runNow();
}

// The tab's own parts: what is said of the search with its button, and the outcomes.
function makeSchedules() {
  searcher = new Thread(element("worker").textContent, element("module").textContent, () => {});
  const button = made("button", { id: "explore" }), line = made("div", { class: "search" });
  button.addEventListener("click", exploreOrStop);
  line.append(made("p", { id: "searched", role: "status" }), button);
  const text = element("panel-schedules").querySelector("pre");
  text.before(line);
  text.after(made("ol", { id: "outcomes", "aria-label": "outcomes" }));
}
