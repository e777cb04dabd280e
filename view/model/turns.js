/* The lines of a turn: one function for each. A change of a level is noted, and taken over once the turn is read. */

// A list that a turn has not: most turns have none of most.
const NONE = Object.freeze([]);

function newTurn(number) {
  return {
    number, process: -1, place: null, kind: "opening", what: NONE, said: NONE, backs: NONE, changes: NONE,
    line: null, message: null, receipt: null,
  };
}

function addTo(turn, list, one) {
  if (turn[list] === NONE) turn[list] = [one]; else turn[list].push(one);
}

// A place, made once for each word that tells it: a loop comes to the same places again and again.
function placeOf(run, word) {
  if (word === "-" || word === undefined) return null;
  let place = run.places.get(word);
  if (place === undefined) {
    const [line, column] = word.split(":").map(Number);
    run.places.set(word, place = { line, column });
  }
  return place;
}

// The kinds of turns, each kept once.
const KINDS = new Map(["idle", "waits", "took", "undone"].map(kind => [kind, kind]));

// What a turn did or wanted, as words: a few, that come again and again.
function wordsIn(run, text) {
  let words = run.wants.get(text);
  if (words === undefined) run.wants.set(text, words = text === "" ? NONE : text.split(" "));
  return words;
}

const TURN = {
  turn(run, turn, scan) {
    turn.process = processIn(run, scan).number;
    turn.place = placeOf(run, scan.word());
    turn.kind = KINDS.get(scan.word());
    turn.what = wordsIn(run, scan.rest());
  },
  back(run, turn, scan) { addTo(turn, "backs", { process: processIn(run, scan).number, to: scan.named() }); },
  var(run, turn, scan) {
    const process = processIn(run, scan), name = scan.word(), element = scan.number(), now = scan.word();
    const variable = process.variables.find(v => v.name === name), index = Number.isNaN(element) ? null : element;
    const values = variable.values[index || 0], before = values.last();
    values.set(turn.number, now);
    addTo(turn, "changes", { process: process.number, variable, index, before, now });
  },
  levels(run, turn, scan) { const now = levelsIn(run, processIn(run, scan)); now.length = Math.min(now.length, scan.number()); },
  level(run, turn, scan) {
    const process = processIn(run, scan), k = scan.number() - 1;
    const block = scan.named(), alternate = scan.named(), used = scan.named(), entered = scan.named();
    if (process.used[k] === undefined) process.used[k] = new History(0);
    process.used[k].set(turn.number, used);
    const before = (process.nextLevels || process.levels.last())[k];
    if (before !== undefined && before.block === block && before.alternate === alternate && before.entered === entered) return;
    levelsIn(run, process)[k] = { block, alternate, entered };
  },
  held(run, turn, scan) {
    const process = processIn(run, scan), count = scan.number(), lines = process.held.last().slice();
    while (lines.length > count) endHeld(lines.pop(), turn);
    process.held.set(turn.number, lines);
  },
  line(run, turn, scan) {
    const process = processIn(run, scan);
    scan.skip();
    turn.line = { id: run.held.length, process: process.number, text: scan.rest(), from: turn.number, to: 0, how: "held" };
    run.held.push(turn.line);
    process.held.set(turn.number, process.held.last().concat(turn.line));
  },
  state(run, turn, scan) {
    const process = processIn(run, scan), is = scan.word();
    process.state.set(turn.number, { is, cause: scan.rest() });
    if (is === "done") process.doneIn = turn.number;
    if (is === "failed") process.failedIn = turn.number;
  },
  channel(run, turn, scan) {
    const channel = run.channels[run.numberOf.channel.get(scan.word())], before = channel.numbers.last();
    const now = { sent: scan.named(), taken: scan.named(), seen: scan.named(), free: scan.named() };
    channel.numbers.set(turn.number, now);
    if (now.sent < before.sent) for (const message of channel.open.splice(now.sent)) message.back = turn.number;
    if (now.taken > before.taken) receive(run, channel, now.taken, turn);
    while (channel.receipts.length > now.taken) channel.receipts.pop().back = turn.number;
  },
  message(run, turn, scan) {
    const channel = run.channels[run.numberOf.channel.get(scan.word())], number = scan.number(), value = scan.word();
    turn.message = { id: run.messages.length, channel: channel.number, number, value, sent: turn.number, back: 0, receipts: [] };
    run.messages.push(turn.message);
    channel.messages.push(turn.message);
    channel.open.push(turn.message);
  },
  conversation(run, turn, scan) {
    const conversation = run.conversations[run.numberOf.conversation.get(scan.word())], broken = scan.word() === "broken";
    conversation.state.set(turn.number, { alternate: broken ? 0 : scan.number(), broken });
  },
};

// The levels of a process behind the turn that is read.
function levelsIn(run, process) {
  if (process.nextLevels === null) {
    process.nextLevels = process.levels.last().slice();
    run.changing.push(process);
  }
  return process.nextLevels;
}

function endHeld(held, turn) {
  held.to = turn.number;
  held.how = turn.kind === "undone" ? "dropped" : "released";
}

function receive(run, channel, taken, turn) {
  const message = channel.open[taken - 1];
  const receipt = { id: run.receipts.length, message, channel: channel.number, sent: message.sent, taken: turn.number, back: 0 };
  run.receipts.push(receipt);
  channel.receipts.push(receipt);
  message.receipts.push(receipt);
  turn.receipt = receipt;
}
