/* Questions asked backwards: what a turn rests on, what changed a variable, which turns carried out a line, and what a rejection put back. */

// The turns in which a conversation passed or was rejected, with the members whom this reached, each from one of its turns on.
function sharedTurns(run) {
  if (run.shared !== undefined) return run.shared;
  run.shared = new Array(run.lastBusy + 1).fill(null);
  for (const { tries, entries } of run.sessions) {
    for (const one of tries) {
      if (!one.to) continue;
      const members = entries.map(e => ({ process: e.process, from: e.turn > one.to ? e.turn : one.to + 1 }));
      if (run.shared[one.to] === null) run.shared[one.to] = [];
      run.shared[one.to].push({ isPassed: one.how === "accepted", members });
    }
  }
  return run.shared;
}

// The turn since which the receiver could see a message: its own, or that in which the sender's outermost block was accepted.
function seenIn(run, receipt) {
  const { turns, values } = run.channels[receipt.channel].numbers;
  for (let k = countUpTo(turns, receipt.sent) - 1; k < turns.length && turns[k] < receipt.taken; k++) {
    if (values[k].seen >= receipt.message.number) return turns[k];
  }
  return receipt.sent;
}

/* The causal past of turn t: for each process the last of its turns that could have reached t, by a message, by a pass, by a rejection, or by
   what a conversation had come to when it was entered. A turn rests on all earlier ones of its process, so one number each tells all. Where each
   process has come in down to some turn, the turns before it add nothing more. */
function pastOf(run, t) {
  const past = new Array(run.processes.length).fill(0), shared = sharedTurns(run);
  if (t < 1 || t > run.lastBusy) return past;
  const reach = (p, u) => { if (u > past[p]) past[p] = u; };
  reach(run.turns[t].process, t);
  for (let u = t; u > 0; u--) {
    if (u % 64 === 0 && past.every(last => last >= u)) break;
    const turn = run.turns[u], ends = shared[u];
    if (ends && ends.some(({ members }) => members.some(m => past[m.process] >= m.from))) reach(turn.process, u);
    if (u > past[turn.process]) continue;
    if (turn.receipt) {
      const seen = seenIn(run, turn.receipt);
      reach(run.channels[turn.receipt.channel].from, turn.receipt.sent);
      reach(run.turns[seen].process, seen);
    }
    if (!ends) continue;
    for (const { isPassed, members } of ends) if (isPassed) for (const m of members) reach(m.process, lastUpTo(run.processes[m.process].turns, u));
  }
  return past;
}

// The values of one element of a variable: each with its turn, the turn that undid it or 0, and whether a rejection put it back.
function changesOf(run, values) {
  return values.turns.map((turn, k) => {
    const isBack = turn > 0 && run.turns[turn].kind === "undone";
    return { turn, value: values.values[k], isBack, undoneIn: isBack ? 0 : run.undoneIn[turn] || 0 };
  });
}

// For each line of the source, counted from 1, the turns that stood at it and were more than a wait.
function turnsOfLine(run, line) {
  if (run.lines === undefined) {
    run.lines = new Map();
    for (const { number, place, kind } of run.turns) {
      if (place === null || kind === "waits" || kind === "idle") continue;
      const found = run.lines.get(place.line);
      if (found === undefined) run.lines.set(place.line, [number]); else found.push(number);
    }
  }
  return run.lines.get(line) || NONE;
}

/* What a process had put back by going from turn t to its recovery point: what each word was before and is after, how many messages were taken
   back and how many given back, and the lines that were dropped. */
function putBackBetween(run, process, before, after) {
  const words = [], channels = [];
  for (const variable of process.variables) {
    variable.values.forEach((values, k) => {
      const was = values.at(before), is = values.at(after);
      if (was !== is) words.push({ name: variable.size === null ? variable.name : `${variable.name}[${k}]`, was, is });
    });
  }
  for (const channel of run.channels) {
    const then = channel.numbers.at(after), now = channel.numbers.at(before);
    if (channel.from === process.number && now.sent > then.sent) channels.push({ name: channel.name, count: now.sent - then.sent, isTaken: true });
    if (channel.to === process.number && now.taken > then.taken) channels.push({ name: channel.name, count: now.taken - then.taken, isTaken: false });
  }
  const kept = process.held.at(after).length;
  return { words, channels, dropped: process.held.at(before).slice(kept).map(held => held.text) };
}
