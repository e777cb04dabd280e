/* The model of a run: what a trace tells is taken as it is told. Here the run as it is before its opening, and the lines of the head. */
function emptyRun() {
  return {
    edition: 1, processes: [], channels: [], conversations: [], blocks: [], count: 0, turns: [], ending: [],
    numberOf: { process: new Map(), channel: new Map(), conversation: new Map() }, places: new Map(), wants: new Map(), changing: [], recent: null,
    undoneIn: [], spans: [], sessions: [], returns: [], messages: [], receipts: [], held: [], outs: [], tellingTurns: [], lastBusy: 0,
  };
}

// One function for each line of the head; `scan` stands behind its first word.
const HEAD = {
  trace() {},
  edition(run, scan) { run.edition = scan.number(); },
  process(run, scan) {
    const name = scan.word(), number = run.processes.length;
    run.numberOf.process.set(name, number);
    run.processes.push({
      name, number, variables: [], turns: [], depth: 0, spans: [], nextLevels: null,
      levels: new History([]), used: [], held: new History([]), state: new History({ is: "runs", cause: "" }),
      doneIn: undefined, failedIn: undefined,
    });
  },
  var(run, scan) {
    const process = processIn(run, scan), name = scan.word(), count = scan.number(), size = Number.isNaN(count) ? null : count;
    const values = Array.from({ length: size === null ? 1 : size }, () => new History("0"));
    process.variables.push({ name, size, values });
  },
  channel(run, scan) {
    const name = scan.word(), number = run.channels.length;
    scan.skip();
    const from = processIn(run, scan).number;
    scan.skip();
    const to = processIn(run, scan).number, size = scan.named();
    run.numberOf.channel.set(name, number);
    const numbers = new History({ sent: 0, taken: 0, seen: 0, free: size });
    run.channels.push({ name, number, from, to, size, numbers, messages: [], open: [], receipts: [] });
  },
  conversation(run, scan) {
    const [name, , parentName, , alternates, , ...members] = scan.rest().split(" "), number = run.conversations.length;
    run.numberOf.conversation.set(name, number);
    run.conversations.push({
      name, number, parentName, alternates: +alternates, members: members.map(member => run.numberOf.process.get(member)),
      state: new History({ alternate: 1, broken: false }), session: null,
    });
  },
  block(run, scan) {
    const [number, , line, , conversation, , bound, , alternates] = scan.rest().split(" ");
    const of = conversation === "-" ? -1 : run.numberOf.conversation.get(conversation);
    run.blocks[+number] = { number: +number, line: +line, conversation: of, bound: +bound, alternates: +alternates };
  },
  turns(run, scan) { run.count = scan.number(); },
};

// The process whose name is next: most often that of the line before.
function processIn(run, scan) {
  if (run.recent !== null && scan.takes(run.recent.name)) return run.recent;
  return run.recent = run.processes[run.numberOf.process.get(scan.word())];
}
