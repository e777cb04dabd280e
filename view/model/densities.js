/* How much of what there is among many turns: counts over sorted lists, for stretches of a run, however long. */

// The sorted turns of each kind: of the run as a whole, and of each process.
function kindsOf(run) {
  if (run.kinds !== undefined) return run.kinds;
  const all = { reject: [], error: [], pass: [], out: [], waits: [] };
  const own = run.processes.map(() => ({ stood: [], undone: [], waits: [], returns: [], last: 0 }));
  for (const { number, process, kind } of run.turns) {
    if (process < 0 || kind === "idle") continue;
    const mine = own[process];
    mine.last = number;
    if (kind === "waits") { mine.waits.push(number); all.waits.push(number); }
    else (run.undoneIn[number] === undefined ? mine.stood : mine.undone).push(number);
  }
  for (const u of run.tellingTurns) {
    if (u === 0) continue;
    for (const kind of ["reject", "error", "pass", "out"]) if (run.turns[u].said.some(line => line.startsWith(kind + " "))) all[kind].push(u);
  }
  for (const back of run.returns) own[back.process].returns.push(back.turn);
  return run.kinds = { all, own };
}

// How many of a sorted list lie in each of `many` stretches of `size` turns, the first of them behind turn `from`; none behind turn `last`.
function countsOf(list, from, size, many, last = Infinity) {
  const counts = new Array(many).fill(0);
  let at = countUpTo(list, from);
  for (let k = 0; k < many && at < list.length && list[at] <= last; k++) {
    const next = countUpTo(list, Math.min(last, from + (k + 1) * size));
    counts[k] = next - at;
    at = next;
  }
  return counts;
}

/* Of a process's own turns in stretches at turn t: how many stand, wait and were undone, and how often it went back. Turns that only a later turn
   undoes stand yet; they lie in its open blocks. */
function sharesOf(run, process, from, size, many, t) {
  const own = kindsOf(run).own[process], counts = list => countsOf(list, from, size, many, t);
  const shares = { stood: counts(own.stood), waits: counts(own.waits), undone: counts(own.undone), returns: counts(own.returns) };
  const [outermost] = run.processes[process].levels.at(t);
  if (outermost === undefined) return shares;
  for (let k = countUpTo(own.undone, outermost.entered - 1); k < own.undone.length && own.undone[k] <= t; k++) {
    const stretch = Math.floor((own.undone[k] - 1 - from) / size);
    if (stretch < 0 || stretch >= many || isUndone(run, own.undone[k], t)) continue;
    shares.undone[stretch]--;
    shares.stood[stretch]++;
  }
  return shares;
}

// What lies between two turns, of each kind of thing that lasts.
function spansOf(run) {
  const open = turn => turn || Infinity, lastOf = message => message.receipts.reduce((last, r) => Math.max(last, r.taken), message.sent);
  return run.near || (run.near = {
    sessions: new Spans(run.sessions, s => s.from, s => open(s.end)), blocks: new Spans(run.spans, s => s.entered, s => open(s.end)),
    messages: new Spans(run.messages, m => m.sent, lastOf), returns: new Spans(run.returns, r => r.to, r => r.turn),
    held: new Spans(run.held, h => h.from, h => open(h.to)), outs: new Spans(run.outs, o => o.turn, o => o.turn),
  });
}
