/* What is shown of a run: a row for each tab. One with a `command` shows what this command of `rbl` prints over the texts that it `takes`, of
   which `record` is what `survive` prints; a row can name another `program`. */
const BOTH = ["program", "schedule"];
const TABS = [
  { id: "picture", title: "Picture", fill: fillPicture },
  {
    id: "printed", title: "What it prints", command: "run", takes: BOTH,
    says: "The lines of the run, each behind the number of its turn, and how it ends.",
  },
  {
    id: "survivors", title: "Survivors", command: "survive", takes: BOTH,
    says: "The turns that stood, as a record: what was undone has left no trace.",
  },
  {
    id: "alone", title: "Run alone", command: "plain", takes: ["program", "record"],
    says: "The turns that stood, run alone, with nothing ever rejected: they print the same lines, and end with the same values.",
  },
  { id: "stuck", title: "Stuck?", command: "stuck", takes: BOTH, says: "Whether anything can still go on after the turns of the schedule." },
  {
    id: "schedules", title: "All schedules", command: "explore", fill: fillSchedules,
    says: "What the program can come to, over every schedule. An outcome opens a shortest schedule that leads there.",
  },
  { id: "listing", title: "Listing", command: "code", takes: ["program"], says: "The instructions that the program is compiled to." },
];
// Of a longer text its first and its last lines are shown.
const MOST_LINES = 2000;

const tabs = { chosen: TABS[0] };

function shortened(text) {
  const lines = text.split("\n");
  if (lines.length <= MOST_LINES) return text;
  const left = lines.length - MOST_LINES;
  return [...lines.slice(0, MOST_LINES / 2), `… ${many(left, "line")} left out …`, ...lines.slice(-MOST_LINES / 2)].join("\n");
}

// What a command printed; while it is on its way, and after a stop, what stood there before is dim.
async function fillText(tab, run) {
  element(`panel-${tab.id}`).classList.add("old");
  const told = await run.answer(tab.command, tab.takes, tab.program);
  if (run === current) showTold(tab, told);
}

function showTold(tab, told) {
  const panel = element(`panel-${tab.id}`), text = panel.querySelector("pre"), save = panel.lastElementChild;
  const isPrinted = Boolean(told.out && (told.status === 0 || told.out.length));
  // Why a run is refused stands beside the texts; why this command alone refuses something, here.
  const why = isPrinted && !fault.now ? textOfBytes(told.reason) : "";
  text.textContent = isPrinted ? shortened(textOfBytes(told.out)) + (why && `\n${why}`) : outcomeInWords(told, null);
  save.onclick = () => download(`${nameOfProgram()}.${tab.command}`, "text/plain", told.out);
  save.hidden = !isPrinted;
  panel.classList.remove("old");
}

async function fillTab(run) {
  setSettled(false);
  await (tabs.chosen.fill || fillText)(tabs.chosen, run);
  if (run === current) setSettled(true);
}

function chooseTab(tab) {
  tabs.chosen = tab;
  for (const { id } of TABS) {
    const isChosen = id === tab.id;
    element(`tab-${id}`).setAttribute("aria-selected", isChosen);
    element(`tab-${id}`).tabIndex = isChosen ? 0 : -1;
    element(`panel-${id}`).hidden = !isChosen;
  }
  if (current) fillTab(current);
}

const KEYS_OF_TABS = { ArrowLeft: at => at - 1, ArrowRight: at => at + 1, Home: () => 0, End: () => TABS.length - 1 };

function makeTabs() {
  for (const tab of TABS) {
    const button = made("button", { role: "tab", id: `tab-${tab.id}`, "aria-controls": `panel-${tab.id}` }, tab.title);
    button.addEventListener("click", () => chooseTab(tab));
    element("tabs").append(button);
    const panel = made("div", { role: "tabpanel", id: `panel-${tab.id}`, "aria-labelledby": `tab-${tab.id}` });
    element("panels").append(panel);
    if (!tab.command) continue;
    const text = made("pre", { tabindex: 0, role: "group", "aria-label": tab.title });
    panel.append(made("p", { class: "note" }, tab.says), text, made("button", { "aria-label": `Save what ${tab.command} prints` }, "Save"));
  }
  element("tabs").addEventListener("keydown", event => {
    if (!Object.hasOwn(KEYS_OF_TABS, event.key)) return;
    event.preventDefault();
    const tab = TABS.at(KEYS_OF_TABS[event.key](TABS.indexOf(tabs.chosen)) % TABS.length);
    chooseTab(tab);
    element(`tab-${tab.id}`).focus();
  });
  chooseTab(TABS[0]);
}
