/* Where two runs part. Their schedules differ from the first turn on, so each process is compared by its own steps: waits and idle turns are none. */
const stepsOf = (run, process) => process === undefined ? [] : process.turns.filter(u => /^(took|undone)$/.test(run.turns[u].kind));

// What a step did, as far as it is the process's own: its kind, the words that it wanted, the values that it set or sent, and its place, if asked.
function signOf(run, process, u, withPlace) {
  const { place, kind, what, changes, message, receipt, line, said } = run.turns[u];
  const words = [withPlace && place ? `${place.line}:${place.column}` : "-", kind, ...what];
  for (const change of changes) if (change.process === process.number) words.push(change.variable.name, change.index, change.now);
  if (message !== null) words.push(message.value);
  if (receipt !== null) words.push(receipt.message.value);
  if (line !== null) words.push(line.text);
  if (kind === "undone") words.push(...said.filter(text => text.startsWith("reject ") || text.startsWith("error ")));
  return words.join(" ");
}

/* Where process p first does another thing in run b than in run a: its step, and the turn of it in each run.
   That one run goes on where the other ends is no difference of what was done. Places tell nothing where the sources differ. */
function partingOf(a, b, p) {
  const isOfOne = a.source === b.source;
  const other = b.processes.find(process => process.name === a.processes[p].name);
  const [mine, theirs] = [stepsOf(a, a.processes[p]), stepsOf(b, other)];
  for (let k = 0; k < Math.min(mine.length, theirs.length); k++) {
    const [one, two] = [signOf(a, a.processes[p], mine[k], isOfOne), signOf(b, other, theirs[k], isOfOne)];
    if (one !== two) return { process: p, step: k + 1, turns: [mine[k], theirs[k]] };
  }
  return null;
}

// Where each process parts, the earliest first.
function partingsOf(a, b) {
  return a.processes.map((_, p) => partingOf(a, b, p)).filter(Boolean).sort((x, y) => Math.min(...x.turns) - Math.min(...y.turns));
}
