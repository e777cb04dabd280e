/* What lasts, worked out of the lines of each turn: which turns were undone, and how long blocks and conversations lived. */

// What one turn's lines come to, once they were all read.
function finish(run, turn) {
  run.turns[turn.number] = turn;
  if (turn.said !== NONE) noteSaid(run, turn);
  if (turn.process >= 0) run.processes[turn.process].turns.push(turn.number);
  if (turn.kind !== "idle") run.lastBusy = turn.number;
  for (const back of turn.backs) goBack(run, turn, back);
  for (const process of run.changing) {
    changeLevels(run, turn, process, process.nextLevels);
    process.nextLevels = null;
  }
  run.changing.length = 0;
}

function noteSaid(run, turn) {
  run.tellingTurns.push(turn.number);
  for (const line of turn.said) {
    if (!line.startsWith("out ")) continue;
    const [, process] = line.split(" ", 2);
    run.outs.push({ turn: turn.number, process: run.numberOf.process.get(process), text: line.slice(5 + process.length) });
  }
}

// A process went back: its turns since then are undone. Those that a block inside had undone before stay as they are.
function goBack(run, turn, back) {
  const { turns, levels } = run.processes[back.process], first = countUpTo(turns, back.to), undone = turns.slice(first);
  for (const u of undone) if (run.undoneIn[u] === undefined) run.undoneIn[u] = turn.number;
  const level = levels.last().findIndex(l => l.entered === back.to);
  run.returns.push({
    id: run.returns.length, turn: turn.number, process: back.process, to: back.to, level, block: levels.last()[level].block, undone,
  });
}

// Levels that are gone end their spans, other alternates begin new tries, new levels new spans.
function changeLevels(run, turn, process, levels) {
  while (process.spans.length > levels.length) {
    const span = process.spans.pop();
    endSpan(run, span, turn.number, turn.kind !== "undone" ? "accepted" : wasRejected(run, turn, span) ? "rejected" : "undone");
  }
  levels.forEach((level, k) => {
    const span = process.spans[k];
    if (span === undefined) process.spans.push(beginSpan(run, turn, process, k, level));
    else if (span.tries[span.tries.length - 1].alternate !== level.alternate) nextTry(span, turn.number, level.alternate);
  });
  process.depth = Math.max(process.depth, levels.length);
  process.levels.set(turn.number, levels);
}

// Whether a turn tells that a level was rejected itself, and not only undone with one around it.
function wasRejected(run, turn, span) {
  const { alternate } = span.tries[span.tries.length - 1], { line } = run.blocks[span.block], { name } = run.processes[span.process];
  const begins = span.conversation >= 0 ? `reject ${run.conversations[span.conversation].name} ${alternate} by `
    : `reject ${name} ensure ${line} ${alternate} `;
  return turn.said.some(said => said.startsWith(begins));
}

const newTry = (alternate, from) => ({ alternate, from, to: 0, how: "open" });

function endTry(tries, turn, how) {
  const last = tries[tries.length - 1];
  if (last.to === 0) Object.assign(last, { to: turn, how });
}

function beginSpan(run, turn, process, depth, level) {
  const conversation = run.blocks[level.block].conversation;
  const span = {
    id: run.spans.length, process: process.number, depth, block: level.block, conversation, entered: level.entered, end: 0, how: "open",
    tries: [newTry(level.alternate, level.entered)], session: null,
  };
  run.spans.push(span);
  if (conversation >= 0) joinSession(run, run.conversations[conversation], span);
  return span;
}

// The first member who enters begins a session of the conversation.
function joinSession(run, conversation, span) {
  if (conversation.session === null) {
    conversation.session = {
      id: run.sessions.length, conversation: conversation.number, depth: span.depth, entries: [], from: span.entered, end: 0, how: "open",
      tries: [newTry(span.tries[0].alternate, span.entered)],
    };
    run.sessions.push(conversation.session);
  }
  span.session = conversation.session;
  conversation.session.entries.push({ process: span.process, turn: span.entered });
}

function nextTry(span, turn, alternate) {
  const both = span.session ? [span, span.session] : [span];
  for (const one of both) {
    if (one.tries[one.tries.length - 1].alternate === alternate) continue;
    endTry(one.tries, turn, "rejected");
    one.tries.push(newTry(alternate, turn));
  }
}

function endSpan(run, span, turn, how) {
  Object.assign(span, { end: turn, how });
  endTry(span.tries, turn, how);
  const { session } = span;
  if (session === null || session.end !== 0) return;
  Object.assign(session, { end: turn, how });
  endTry(session.tries, turn, how);
  run.conversations[session.conversation].session = null;
}
