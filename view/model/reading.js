/* Reads a trace: the head, the opening and the turns, and the ending. */
const PRINTED = new Set(["reject", "error", "pass", "out", "done"]);

function readHead(run, scan) {
  for (let word = ""; scan.isMore && word !== "turns"; scan.nextLine()) HEAD[word = scan.word()](run, scan);
  for (const c of run.conversations) c.parent = c.parentName === "-" ? -1 : run.numberOf.conversation.get(c.parentName);
}

function readTurns(run, scan) {
  let turn = newTurn(0);
  for (; scan.isMore; scan.nextLine()) {
    const number = scan.number(), from = scan.at;
    if (Number.isNaN(number)) { scan.at = from - "end ".length; break; }
    if (number !== turn.number) { finish(run, turn); turn = newTurn(number); }
    const word = scan.word();
    if (PRINTED.has(word)) { scan.at = from; addTo(turn, "said", scan.rest()); }
    else TURN[word](run, turn, scan);
  }
  finish(run, turn);
}

function readTrace(text) {
  const run = emptyRun(), scan = new Scanner(text);
  readHead(run, scan);
  readTurns(run, scan);
  for (; scan.isMore; scan.nextLine()) run.ending.push(scan.rest());
  return run;
}
