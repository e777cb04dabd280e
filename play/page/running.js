/* Runs the texts: a moment after a change by itself, and at once where it is asked for. */
const SOON = 40, LATE = 400;
// After a key, how long a fault waits until it is told: a text is seldom whole while one types.
const BEFORE_A_FAULT = 450;
// How long a run may go on of which nobody wants to know any more, and one that is wanted before it says so.
const PATIENCE = 200;
let thread = null, current = null, timer = 0, lastChange = 0, lastTook = 0, pending = 0, busySince = 0;

// One run of the texts as they stand: what each command answers of them is asked for once.
class Run {
  constructor(given) {
    this.texts = given;
    this.answers = new Map();
  }
  answer(command, takes, program = "rbl") {
    if (!this.answers.has(command)) this.answers.set(command, this.#answered(command, takes, program));
    return this.answers.get(command);
  }
  // The text `record` is what `survive` prints of the others.
  async #answered(command, takes, program) {
    const record = takes.includes("record") ? await this.answer("survive", BOTH) : null;
    if (record && record.status !== 0) return record;
    return ask(program, [command, ...takes], takes.map(name => name === "record" ? record.out : this.texts[name]));
  }
}

async function ask(program, words, given) {
  if (pending++ === 0) busySince = performance.now();
  setTimeout(showBusy, PATIENCE + 1);
  const told = await thread.ask(program, words, given);
  pending--;
  showBusy();
  return told;
}

function showBusy() {
  const isBusy = pending > 0 && performance.now() - busySince >= PATIENCE;
  if (!isBusy && document.activeElement === element("stop")) element("run").focus();
  element("stop").hidden = !isBusy;
}

// Whether what is shown is of the texts as they stand.
const setSettled = isSettled => element("panels").setAttribute("aria-busy", !isSettled);

function changed() {
  lastChange = performance.now();
  setSettled(false);
  clearTimeout(timer);
  timer = setTimeout(run, Math.max(SOON, Math.min(LATE, lastTook / 4)));
  showWhichLesson();
}

function runNow() {
  lastChange = -BEFORE_A_FAULT;
  return run();
}

// Runs what stands there. A newer call takes the place of this one wherever it is.
async function run() {
  clearTimeout(timer);
  setSettled(false);
  const mine = current = new Run(texts()), from = performance.now();
  leaveSearch(mine.texts.program);
  if (location.hash.length < 2) keep("texts", JSON.stringify(mine.texts)); // those of a link are kept by it
  for (const end = performance.now() + PATIENCE; thread.isBusy && performance.now() < end;) await wait(10);
  if (mine !== current) return;
  if (thread.isBusy) thread.stop();
  const told = await mine.answer("run", BOTH), found = told.reason && told.reason.length ? faultOf(textOfBytes(told.reason)) : null;
  if (found) await wait(lastChange + BEFORE_A_FAULT - performance.now());
  if (mine !== current) return;
  showFault(found);
  showOutcome(outcomeInWords(told, found), told.status !== 0);
  await fillTab(mine);
  lastTook = performance.now() - from;
}

// Stops what runs, and what was about to run.
function stop() {
  clearTimeout(timer);
  if (!current.answers.has("run")) current.answers.set("run", { isStopped: true });
  thread.stop();
  showOutcome("Stopped.", true);
  setSettled(true);
}
