/* The shown process: its variables before and after, its recovery points with what each would put back, and the lines that it holds. */
const MOST_SHOWN = 12;

const shownValues = (now, before) => {
  const some = now.slice(0, MOST_SHOWN).map((value, k) => before && before[k] !== value ? `<b>${escaped(value)}</b>` : escaped(value));
  return some.join(" ") + (now.length > MOST_SHOWN ? " …" : "");
};

function variablesTable(process, t) {
  if (!process.variables.length) return `<p class="note">no variables of its own</p>`;
  const after = state.turn > LAST ? "at the end" : t === 0 ? "at the opening" : `after turn ${grouped(t)}`;
  const rows = process.variables.map(variable => variableRow(process, variable, t));
  return `<table><thead><tr><th>variable<th>before<th>${after}</thead><tbody>${rows.join("")}</tbody></table>`;
}

function variableRow(process, variable, t) {
  const before = Model.valuesAt(variable, state.turn > LAST ? t : Math.max(0, t - 1)), now = Model.valuesAt(variable, t);
  const isChanged = before.join() !== now.join(), isChosen = isAsked("variable", { process: process.name, name: variable.name });
  const name = escaped(variable.name);
  const button = `<button class="link" data-variable="${name}" aria-pressed="${isChosen}" title="its history">${name}</button>`;
  return `<tr${isChanged ? ' class="changed"' : ""}><th scope="row">${button}<td>${shownValues(before)}<td>${shownValues(now, before)}`;
}

// What would go back to a level's recovery point.
function putBack(process, level, t) {
  const { words, channels, dropped } = Model.putBackBetween(run, process, t, level.entered);
  return [...words.map(({ name, was, is }) => `${escaped(name)} <b>${was}</b> → ${is}`),
    ...channels.map(messagesBack),
    ...(dropped.length ? [`${many(dropped.length, "held line")} dropped`] : [])];
}

function recoveryPoint(process, level, k, t) {
  const block = run.blocks[level.block], found = putBack(process, level, t), { entered, alternate } = level, used = process.used[k].at(t);
  const of = block.conversation >= 0 ? `${run.conversations[block.conversation].name} (line ${block.line})` : `block on line ${block.line}`;
  const share = `width:${Math.min(100, 100 * used / block.bound)}%`, meter = `<i style="${share}"></i>`;
  const turns = `<span class="meter" role="img" aria-label="${used} of ${block.bound} turns used">${meter}</span> ${used} of ${block.bound} turns`;
  const some = found.slice(0, MOST_SHOWN).join(", ") + (found.length > MOST_SHOWN ? " …" : "");
  const head = `<b>turn ${grouped(entered)}</b> ${escaped(of)}, alternate ${alternate} of ${block.alternates} ${turns}`;
  const what = found.length ? `would put back: ${some}` : "nothing differs from then";
  return `<div class="recoverypoint colour${k % 3}"><p>${head}</p><p>${what}</p></div>`;
}

// How the process stands, and what it waits for.
function standingWords(process, levels, t) {
  const { is, cause } = process.state.at(t), wait = t > 0 ? Model.waitOf(run, process.number, t) : null;
  const runs = levels.length ? `inside ${many(levels.length, "block")}` : "outside all blocks";
  const stands = { runs, line: "at the test line", done: "done", failed: `failed: ${cause}` };
  if (!wait) return stands[is];
  const [other] = wait.of, { is: how } = run.processes[other].state.at(t), isOver = wait.kind !== "line" && (how === "done" || how === "failed");
  const end = isOver ? `, ${how === "done" ? "which is done" : "which has failed"}: it never comes` : "";
  return `${waitInWords(wait, process.number).replace(`${process.name} waits`, "waits")}${end}; ${stands[is]}`;
}

function showProcess() {
  const t = Math.min(state.turn, LAST), process = run.processes[state.process], levels = process.levels.at(t);
  const points = levels.map((level, k) => recoveryPoint(process, level, k, t)).reverse();
  const held = process.held.at(t).map(line => `<li><span>${line.from}</span> ${escaped(line.text)}</li>`);
  const stands = `<p class="stands">${escaped(standingWords(process, levels, t))}</p>`;
  setMarkup("process", stands + variablesTable(process, t) + historyBox(process, t) + backBox(t) +
    `<h3>Recovery points</h3>${points.join("") || '<p class="note">none is open: what it has done stands for good</p>'}` +
    `<h3>Held lines</h3>${held.length ? `<ul class="lines">${held.join("")}</ul>` : '<p class="note">none</p>'}`);
}

function listenToProcess() {
  element("process").addEventListener("click", event => {
    const button = event.target.closest("button");
    if (!button || button.disabled) return;
    if (button.dataset.go !== undefined) go(+button.dataset.go);
    else if (button.dataset.variable) askVariable(button.dataset.variable, +(button.dataset.index || 0));
  });
}

// The process stays shown while its variable is asked for.
function askVariable(name, index) {
  Object.assign(state, { follow: false });
  ask("variable", { process: nameOf(state.process), name, index });
}
