/* One question at a time: about a variable, a line of the source, a message, or whatever is looked for. Its answer is some turns; one goes from one
   to the next, they are marked in the picture, and playing stops at them. It is asked anew of a run that takes the place of another. */
const counted = (count, one, undone) => `${many(count, one)}${undone ? `, ${grouped(undone)} undone` : ""}`;
const countedTurns = turns => counted(turns.length, "turn", turns.filter(turn => run.undoneIn[turn] !== undefined).length);

const ANSWERS = {
  variable({ process, name, index }) {
    const p = run.numberOf.process.get(process), variable = p === undefined ? null : run.processes[p].variables.find(v => v.name === name);
    if (!variable || index >= variable.values.length) return null;
    const values = variable.values[index], turns = values.turns.slice(1), label = variable.size === null ? name : `${name}[${index}]`;
    const undone = Model.changesOf(run, values).filter(change => change.undoneIn).length;
    return { title: `${label} of ${process}`, note: counted(turns.length, "change", undone), turns, values, label };
  },
  line({ line }) {
    const turns = Model.turnsOfLine(run, line);
    return { title: `Line ${line}`, note: turns.length ? countedTurns(turns) : "no turn carried it out", turns };
  },
  message({ id }) {
    const message = run.messages[id];
    if (!message) return null;
    const turns = [message.sent, ...message.receipts.flatMap(r => [r.taken, r.back]), message.back].filter(turn => turn > 0);
    const taken = message.receipts.map(r => `received in turn ${r.taken}${r.back ? `, undone in ${r.back}` : ""}`);
    const back = message.back ? [`taken back in ${message.back}`] : [], received = taken.length ? taken : ["never received"];
    const notes = [`sent in turn ${message.sent}`, ...received, ...back];
    const title = `${message.value} on ${run.channels[message.channel].name}`;
    return { title, note: notes.join("; "), turns: [...new Set(turns)].sort((a, b) => a - b) };
  },
  find({ text }) {
    const turns = Model.turnsFound(run, text, CAUSES).filter(turn => turn <= LAST);
    return { title: `“${text}”`, note: turns.length ? countedTurns(turns) : "found in no turn", turns };
  },
};

function isAsked(kind, key) {
  const { asked } = state;
  return asked !== null && asked.kind === kind && Object.keys(key).every(name => asked.key[name] === key[name]);
}

function answerOf(kind, key) {
  const answer = ANSWERS[kind](key);
  return answer && { kind, key, ...answer };
}

// Asks a question; one that is asked again is done with.
function ask(kind, key) {
  state.asked = isAsked(kind, key) ? null : answerOf(kind, key);
  drawWhole();
  show(true);
}

function askAnew() {
  if (!state.asked) return;
  state.asked = state.asked.kind === "message" ? null : answerOf(state.asked.kind, state.asked.key);
}

function forget() {
  if (!state.asked) return;
  state.asked = null;
  element("find").value = "";
  drawWhole();
  show(true);
}

// The answering turn before or behind the chosen one, or 0.
function answerBeside(way) {
  const { turns } = state.asked;
  return way > 0 ? Model.firstBehind(turns, Math.min(state.turn, LAST)) : Model.lastUpTo(turns, state.turn > LAST ? LAST : state.turn - 1);
}

function goAnswer(way) {
  const turn = state.asked ? answerBeside(way) : 0;
  if (turn) go(turn);
}

function showAsked() {
  const box = element("asked");
  box.hidden = !state.asked;
  if (!state.asked) return;
  const [before, behind] = [answerBeside(-1), answerBeside(1)];
  const button = (turn, text, label) => `<button data-go="${turn}"${turn ? "" : " disabled"} aria-label="${label}">${text}</button>`;
  box.innerHTML = `<p><b>${escaped(state.asked.title)}</b> <span class="note">${escaped(state.asked.note)}</span></p><div class="group">` +
    button(before, `‹ ${before ? grouped(before) : ""}`, `the turn before${before ? `, ${before}` : ""} (p)`) +
    button(behind, `${behind ? grouped(behind) : ""} ›`, `the next turn${behind ? `, ${behind}` : ""} (n)`) +
    `<button data-forget aria-label="close the question">×</button></div>`;
}

function listenToAsking() {
  element("asked").addEventListener("click", event => {
    const button = event.target.closest("button");
    if (!button || button.disabled) return;
    if ("forget" in button.dataset) forget(); else go(+button.dataset.go);
  });
  element("sourcetext").addEventListener("click", event => {
    const button = event.target.closest("[data-line]");
    if (button) ask("line", { line: +button.dataset.line });
  });
  element("find").addEventListener("keydown", event => {
    const text = event.target.value.trim();
    if (event.key !== "Enter" || text === "") return;
    if (!isAsked("find", { text })) ask("find", { text });
    event.target.blur();
    goAnswer(event.shiftKey ? -1 : 1);
  });
  element("find").addEventListener("search", event => { if (event.target.value === "" && state.asked && state.asked.kind === "find") forget(); });
}
