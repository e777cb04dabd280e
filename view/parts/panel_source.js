/* The source: with the open blocks of the shown process, the alternates that run, and the statement of the turn where the trace tells its place. */
let BLOCKS = [], ROWS = [];

// A page around this one shows the source itself, and then there are no rows.
function layRows() {
  BLOCKS = blocksOfSource(SOURCE_LINES);
  element("sourcetext").textContent = "";
  ROWS = document.documentElement.dataset.within ? [] : SOURCE_LINES.map(() => element("sourcetext").appendChild(document.createElement("div")));
}

// What is marked on each line: pieces [from, to, class], and a bar for each alternate that runs there.
function sourceMarks(t) {
  const marks = SOURCE_LINES.map(() => ({ pieces: [], bars: "" }));
  run.processes[state.process].levels.at(t).forEach((level, k) => {
    const block = BLOCKS[level.block], alternate = block && block.alternates[level.alternate];
    if (!block) return;
    marks[block.ensure.line].pieces.push([block.ensure.from, block.ensure.to, "ensure"]);
    if (alternate) markAlternate(marks, alternate, k % 3);
  });
  return marks;
}

function markAlternate(marks, { from, to }, colour) {
  for (let line = from.line; line <= to.line; line++) {
    const piece = [line === from.line ? from.from : 0, line === to.line ? to.to : Infinity, `alternate colour${colour}`];
    marks[line].pieces.push(piece);
    marks[line].bars += `<i class="colour${colour}"></i>`;
  }
}

// The place of the last turn of the shown process, if it is told, or the line of the block of its `ensure`.
function markPlace(marks, t) {
  const last = Model.lastUpTo(run.processes[state.process].turns, t), turn = last ? run.turns[last] : null;
  if (!turn || t > LAST) return -1;
  const name = last === t ? (turn.kind === "undone" ? "place undone" : "place") : "place before";
  if (turn.place) return markStatement(marks, turn.place, name);
  if (turn.kind === "took" && (turn.what[0] === "enter" || turn.what[0] === "start")) return markEnsure(marks, +turn.what[1], name);
  if (isTest(run, turn) || turn.kind === "undone" || turn.what[0] === "at") {
    const levels = run.processes[state.process].levels.at(last - 1);
    return levels.length && (turn.kind !== "undone" || turn.backs.length) ? markEnsure(marks, levels[levels.length - 1].block, name) : -1;
  }
  return -1;
}

// A statement, from the word with which it begins.
function markStatement(marks, place, name) {
  const line = place.line - 1, begin = beginOfStatement(wordsOfTheSource(), place), text = SOURCE_LINES[line] || "";
  if (begin && begin.line < line) marks[begin.line].pieces.push([begin.from, begin.to, name]);
  marks[line].pieces.push([begin && begin.line === line ? begin.from : place.column - 1, endOfStatement(text, place.column - 1), name]);
  return line;
}

function markEnsure(marks, number, name) {
  const block = BLOCKS[number];
  if (!block) return -1;
  const text = SOURCE_LINES[block.ensure.line];
  marks[block.ensure.line].pieces.push([block.ensure.from, endOfStatement(text, block.ensure.from), name]);
  return block.ensure.line;
}

// Where the statement ends that begins at a place of a line.
function endOfStatement(text, from) {
  let inText = false;
  for (let k = from; k < text.length; k++) {
    if (text[k] === '"') inText = !inText;
    if (!inText && ";{#".includes(text[k])) return text[k] === ";" ? k + 1 : k;
  }
  return text.length;
}

function lineAsMarkup(text, pieces) {
  const ends = pieces.flatMap(([from, to]) => [Math.min(from, text.length), Math.min(to, text.length)]);
  const cuts = [...new Set([0, text.length, ...ends])].sort((a, b) => a - b);
  return cuts.slice(0, -1).map((from, k) => {
    const names = pieces.filter(piece => piece[0] <= from && cuts[k + 1] <= piece[1]).map(piece => piece[2]).join(" ");
    const part = escaped(text.slice(from, cuts[k + 1]));
    return names ? `<span class="${names}">${part}</span>` : part;
  }).join("");
}

// Where the statement of the chosen turn stands: its pieces.
const placesIn = marks => marks.flatMap(({ pieces }, line) =>
  pieces.filter(([, , name]) => name.startsWith("place")).map(([from, to, name]) => ({ line, from, to, name })));

// Shows the source at the chosen turn, and answers what brings the line into sight.
function showSource() {
  const t = Math.min(state.turn, LAST), marks = sourceMarks(t), place = markPlace(marks, state.turn);
  state.tell(placesIn(marks));
  ROWS.forEach((row, line) => showRow(row, line, marks[line], line === place));
  const levels = run.processes.length ? run.processes[state.process].levels.at(t) : [];
  const open = levels.length ? BLOCKS[levels[levels.length - 1].block] : null;
  const line = place >= 0 ? place : open ? open.ensure.line : run.processes.length ? lineOfProcess(SOURCE_LINES, nameOf(state.process)) : -1;
  return () => intoSight(element("sourcebox"), line < 0 ? null : ROWS[line]);
}

// A row of the source is made anew where something of it is another.
function showRow(row, line, { pieces, bars }, isHere) {
  const isChosen = isAsked("line", { line: line + 1 }), sign = `${bars}|${isHere}|${isChosen}|${pieces.join(";")}`;
  if (row.sign === sign) return;
  row.sign = sign;
  row.className = `row${isHere ? " here" : ""}${isChosen ? " chosen" : ""}`;
  const turns = Model.turnsOfLine(run, line + 1).length, label = `line ${line + 1}: ${many(turns, "turn")} carried it out`;
  const asks = `data-line="${line + 1}" title="the turns that carried it out" aria-label="${label}" aria-pressed="${isChosen}"`;
  const number = turns ? `<button class="link" ${asks}>${line + 1}</button>` : line + 1;
  row.innerHTML = `<b>${number}</b><u>${bars}</u><code>${lineAsMarkup(SOURCE_LINES[line], pieces) || " "}</code>`;
}

function intoSight(box, row) {
  if (!row) return;
  const y = row.offsetTop;
  if (y < box.scrollTop + 20 || y > box.scrollTop + box.clientHeight - 40) box.scrollTop = y - box.clientHeight / 2;
}
