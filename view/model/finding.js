/* Finds turns: those in which a condition on a variable comes to hold, and those that have to do with a text. */
const CONDITION = /^\s*(?:([A-Za-z]\w*)\.)?([A-Za-z]\w*)(?:\[(\d+)\])?\s*(<=|>=|<>|!=|==?|<|>)\s*(-?\d+)\s*$/;
const COMPARISONS = {
  "<": (a, b) => a < b, "<=": (a, b) => a <= b, ">": (a, b) => a > b, ">=": (a, b) => a >= b,
  "=": (a, b) => a === b, "==": (a, b) => a === b, "<>": (a, b) => a !== b, "!=": (a, b) => a !== b,
};

const sortedOnce = turns => [...new Set(turns)].sort((a, b) => a - b);

// The turns in which `name` (of `process`, or of any) comes to compare so with a number, after it did not.
function turnsWhere(run, [, process, name, index, sign, number]) {
  const found = [], wanted = BigInt(number), holds = value => COMPARISONS[sign](BigInt(value), wanted);
  for (const p of run.processes) {
    if (process !== undefined && p.name !== process) continue;
    for (const variable of p.variables) {
      if (variable.name !== name) continue;
      variable.values.forEach((values, k) => {
        if (index !== undefined && k !== +index) return;
        values.turns.forEach((turn, n) => { if (n > 0 && holds(values.values[n]) && !holds(values.values[n - 1])) found.push(turn); });
      });
    }
  }
  return sortedOnce(found);
}

// Whether a turn has to do with a text: a part of what came out, of a printed line or of a cause; or the whole of a name. `causes` are in words.
function hasText(run, turn, text, causes) {
  if (turn.said.some(line => line.toLowerCase().includes(text))) return true;
  if (turn.line !== null && turn.line.text.toLowerCase().includes(text)) return true;
  if (turn.what.some(word => word.toLowerCase() === text)) return true;
  if (turn.process >= 0 && run.processes[turn.process].name.toLowerCase() === text) return true;
  if (turn.changes.some(change => change.variable.name.toLowerCase() === text)) return true;
  return turn.said.some(line => /^(reject|error) /.test(line) && (causes[line.slice(line.lastIndexOf(" ") + 1)] || "").toLowerCase().includes(text));
}

function turnsWith(run, text, causes) {
  const wanted = text.trim().toLowerCase();
  if (wanted === "") return [];
  return run.turns.filter(turn => turn.kind !== "idle" && hasText(run, turn, wanted, causes)).map(turn => turn.number);
}

// The turns that are found by a text, which may be a condition as `price > 40` or `shop.stock[2] = 0`.
function turnsFound(run, text, causes) {
  const condition = CONDITION.exec(text);
  return condition ? turnsWhere(run, condition) : turnsWith(run, text, causes);
}
