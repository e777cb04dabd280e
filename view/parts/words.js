/* A turn in words. */
const CAUSES = {
  test: "its test does not hold", fail: "it says `fail`", overrun: "it has used up its turns", zero: "it divides by 0",
  overflow: "a number does not fit",
  index: "an array has no such element", range: "a quantified expression has too many numbers", stack: "it has too many variables",
  calls: "it has too many open calls",
  depth: "it has too many open blocks", hold: "it holds too many lines", inner: "a block inside has no alternate left",
  broken: "the conversation is broken",
};

// A line `reject`, without its turn.
function rejection(line) {
  const w = line.split(" ");
  if (w[2] === "ensure") return `alternate ${w[4]} of the block on line ${w[3]} is rejected: ${CAUSES[w[5]]}`;
  const why = w[5] === "inner" ? CAUSES.inner : w[5] === "test" ? `the test of ${w[4]} does not hold` : `in ${w[4]}, ${CAUSES[w[5]]}`;
  return `alternate ${w[2]} of the conversation ${w[1]} is rejected for all who are inside: ${why}`;
}

// The ways back of a turn: they stand in the order of turns.
function returnsIn(turn) {
  if (run.returnTurns === undefined) run.returnTurns = run.returns.map(back => back.turn);
  return run.returns.slice(Model.countUpTo(run.returnTurns, turn - 1), Model.countUpTo(run.returnTurns, turn));
}

function undoneWords(turn) {
  const rejections = turn.said.filter(line => line.startsWith("reject ")).map(rejection);
  const backs = returnsIn(turn.number).map(r => {
    const undone = r.undone.length ? `its ${turnsIn(r.undone)} ${r.undone.length === 1 ? "is" : "are"} undone` : "nothing of it is undone";
    return `${nameOf(r.process)} goes back to turn ${r.to}: ${undone}`;
  });
  return [rejections.join("; and so "), ...backs];
}

function waitWords(turn, p) {
  const [, what, name] = turn.what;
  if (what === "room") return `${p} waits: the channel ${name} has no room`;
  if (what === "message") return `${p} waits: there is no message for it on ${name}`;
  const conversation = run.numberOf.conversation.get(name);
  const late = run.conversations[conversation].members.filter(m => !Model.atLineAt(run, m, conversation, turn.number));
  return `${p} waits at the test line of ${name} for ${listed(late.map(nameOf))}`;
}

// Whether a turn of a run was an acceptance test that held.
function isTest(run, turn) {
  if (turn.kind !== "took" || turn.what[0] !== "step" || turn.line || turn.changes.length) return false;
  const p = run.processes[turn.process], before = turn.number - 1;
  if (p.levels.at(turn.number).length < p.levels.at(before).length) return true;
  return p.state.at(turn.number).is === "line" && p.state.at(before).is !== "line";
}

function testWords(turn, p) {
  const levels = run.processes[turn.process].levels.at(turn.number - 1), block = run.blocks[levels[levels.length - 1].block];
  const holds = `the test of ${p} on line ${block.line} holds`;
  if (block.conversation < 0) return `${holds}: the block is accepted`;
  if (turn.said.some(line => line.startsWith("pass "))) return holds;
  return `${holds}: it stands at the test line of ${run.conversations[block.conversation].name}`;
}

// The words of the source, looked for once.
let theWords = { of: null, words: [] };

function wordsOfTheSource() {
  if (theWords.of !== SOURCE_LINES) theWords = { of: SOURCE_LINES, words: wordsOfSource(SOURCE_LINES) };
  return theWords.words;
}

function stepWords(turn, p) {
  if (isTest(run, turn)) return testWords(turn, p);
  if (turn.line) return `${p} prints “${turn.line.text}”; inside a block, the line is held`;
  const change = turn.changes[0], begin = turn.place ? beginOfStatement(wordsOfTheSource(), turn.place) : null, word = begin ? begin.word : "";
  const element = change && change.index !== null ? `[${change.index}]` : "";
  if (word === "if" || word === "while") return `${p} evaluates the test of its \`${word}\``;
  if (word === "call") return `${p} calls a procedure`;
  if (change) return `${p} sets ${change.variable.name}${element} to ${change.now}; it was ${change.before}`;
  if (turn.said.some(line => line.startsWith("out "))) return `${p} prints`;
  return `${p} takes a step that leaves its variables as they are`;
}

function tookWords(turn, p) {
  const [what, name, number] = turn.what;
  if (what === "enter") return `${p} enters ${blockName(run.blocks[name])}, and sets a recovery point`;
  if (what === "start") return `${p} starts alternate ${number} of ${run.blocks[name].alternates} of ${blockName(run.blocks[name])}`;
  if (what === "send") {
    const channel = run.channels[run.numberOf.channel.get(name)];
    const sees = channel.numbers.at(turn.number).seen >= turn.message.number;
    return `${p} sends ${turn.message.value} on ${name}; ${nameOf(channel.to)} ${sees ? "can take it" : "can not see it yet"}`;
  }
  if (what === "receive") {
    if (!turn.receipt) return `${p} finds nothing on ${name}, and goes on with \`else\``;
    return `${p} receives ${turn.receipt.message.value} from ${name}, sent in turn ${turn.receipt.sent}`;
  }
  return stepWords(turn, p);
}

// The lines of the run that come behind what a turn did.
function saidWords(turn) {
  return turn.said.flatMap(line => {
    const w = line.split(" ");
    if (w[0] === "error") return [`${w[1]} has failed: ${w[2] === "inner" ? "no alternate is left" : CAUSES[w[2]]}`];
    if (w[0] === "pass") return [`all members of ${w[1]} stand at the test line, and pass it with alternate ${w[2]}`];
    if (w[0] === "out") return [`“${w.slice(2).join(" ")}” comes out of ${w[1]}`];
    return w[0] === "done" ? [`${w[1]} is done`] : [];
  });
}

function turnWords(turn) {
  const p = nameOf(turn.process);
  if (turn.kind === "undone") return undoneWords(turn);
  if (turn.kind === "waits") return [waitWords(turn, p)];
  if (turn.kind === "took") return [tookWords(turn, p)];
  return [run.processes[turn.process].state.at(turn.number).is === "failed" ? `${p} has failed, and does nothing` : `${p} is done, and does nothing`];
}

// How many turns stand, and how many were undone, at the end.
function countsAtEnd() {
  if (run.counts === undefined) {
    let undone = 0;
    run.undoneIn.forEach(() => undone++);
    run.counts = { stand: survivorsAt(run, LAST).length, undone };
  }
  return run.counts;
}

function endWords() {
  const those = (is, one, more) => {
    const names = run.processes.filter(p => is.includes(p.state.at(LAST).is)).map(p => p.name);
    return names.length ? [`${names.length > 6 ? names.length + " processes" : listed(names)} ${names.length === 1 ? one : more}`] : [];
  };
  const { stand, undone } = countsAtEnd(), open = those(["runs", "line"], "has not come to its end", "have not come to their ends");
  const ends = [...those(["done"], "is done", "are done"), ...those(["failed"], "has failed", "have failed"), ...open].join("; ");
  return `The end, after ${many(run.count, "turn")}: ${ends}. ${many(stand, "turn")} ${stand === 1 ? "stands" : "stand"}, ` +
    `${undone} ${undone === 1 ? "was" : "were"} undone; in the others a process waited or was idle.`;
}

function sentence(t) {
  if (t === 0) return ["The opening: every variable is 0, and no block is open", ...saidWords(run.turns[0])].join("; ") + ".";
  if (t > LAST) return endWords();
  const turn = run.turns[t];
  return `Turn ${t}: ` + [...turnWords(turn), ...saidWords(turn)].filter(Boolean).join("; ") + ".";
}
