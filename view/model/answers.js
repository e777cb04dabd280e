/* What stood at a turn: asked of a run that was read. */

// Whether turn u was undone by turn t.
const isUndone = (run, u, t) => run.undoneIn[u] !== undefined && run.undoneIn[u] <= t;

// The messages of a channel that are sent at t and not taken back, from the one behind number `first` on. A number that comes again is that of a
// later message, so those of the last ones hide all before them.
function openAt(channel, t, first = 0) {
  const { sent } = channel.numbers.at(t), found = [];
  if (channel.begins === undefined) channel.begins = channel.messages.map(message => message.sent);
  for (let k = countUpTo(channel.begins, t) - 1; k >= 0 && found.length < sent - first; k--) {
    const message = channel.messages[k];
    if (!message.back || message.back > t) found.push(message);
  }
  return found.reverse();
}

// The turns that stand at t: those that took something, and were not undone.
function survivors(run, t) {
  const found = [];
  for (let u = 1; u <= Math.min(t, run.lastBusy); u++) if (run.turns[u].kind === "took" && !isUndone(run, u, t)) found.push(u);
  return found;
}

// The line of `rbl survive` for a turn that stands, and all of them at t.
function recordOf(run, u) {
  const { process, what } = run.turns[u];
  return `${u} ${run.processes[process].name}` + (what[0] === "start" ? ` ${what[2]}` : "");
}
const record = (run, t) => survivors(run, t).map(u => recordOf(run, u));

// The lines that `rbl run` has written at t, but for its ending: the last `most` of them.
function printed(run, t, most = Infinity) {
  const lines = [];
  for (let k = countUpTo(run.tellingTurns, t) - 1; k >= 0 && lines.length < most; k--) {
    const u = run.tellingTurns[k], { said } = run.turns[u];
    for (let n = said.length - 1; n >= 0; n--) lines.push({ turn: u, line: `${u} ${said[n]}` });
  }
  return lines.reverse();
}

// How many lines that are.
function countPrinted(run, t) {
  if (run.printedBefore === undefined) {
    let sum = 0;
    run.printedBefore = run.tellingTurns.map(u => sum += run.turns[u].said.length);
  }
  return run.printedBefore[countUpTo(run.tellingTurns, t) - 1] || 0;
}

// The lines with which `rbl run` would end at t.
function endingAt(run, t) {
  const lines = [`end ${t}`];
  for (const process of run.processes) {
    const state = process.state.at(t).is;
    lines.push(`${process.name} ${state === "done" || state === "failed" ? state : "open " + process.levels.at(t).length}`);
    for (const v of process.variables) lines.push(`${process.name}.${v.name} = ${v.values.map(value => value.at(t)).join(" ")}`);
  }
  for (const c of run.channels) { const n = c.numbers.at(t); lines.push(`${c.name} sent ${n.sent} taken ${n.taken}`); }
  return lines;
}

// What a variable holds at t: the values of all its elements.
const valuesAt = (variable, t) => variable.values.map(value => value.at(t));

// Whether a process stands inside a conversation at t, and whether at its test line.
function insideAt(run, process, conversation, t) {
  return run.processes[process].levels.at(t).some(level => run.blocks[level.block].conversation === conversation);
}
function atLineAt(run, process, conversation, t) {
  const p = run.processes[process], levels = p.levels.at(t);
  return p.state.at(t).is === "line" && run.blocks[levels[levels.length - 1].block].conversation === conversation;
}

// How many messages the receiver has taken for good at t: those that no rejection gives back.
function takenForGood(run, channel, t) {
  const numbers = channel.numbers.at(t);
  return numbers.sent - (channel.size - numbers.free);
}
