/* What all parts of the page share: its texts, the runs, and how words are made of them. */
const element = id => document.getElementById(id);
const escaped = text => String(text).replace(/[&<>"']/g, c => `&#${c.charCodeAt(0)};`);
const textOf = id => element(id).textContent.replace(/&#(\d+);/g, (_, n) => String.fromCharCode(+n));

/* The runs that are shown, one or two, and the one that is spoken of: the panels tell of it. Of its turns `LAST` is the last that is drawn; idle
   turns behind it are one column. `END` is the last place to which one can go, in the longer of two runs. */
let SOURCE_LINES = [], TITLE = "", RUNS = [], PARTINGS = [], run = null, LAST = 0, END = 0;

function newRun(texts) {
  const { source, schedule, trace } = texts;
  const read = Model.readTrace(trace.startsWith("trace 1\n") ? trace : "turns 0\nend 0\n"), last = read.lastBusy;
  return Object.assign(read, { texts, source, schedule, last, end: read.count > last ? last + 1 : last });
}

function speakOf(which) {
  run = RUNS[which];
  LAST = run.last;
}

// A run, and one to compare it with, if there is one.
function takeRuns(texts, other) {
  SOURCE_LINES = texts.source.split(/\r?\n/);
  if (SOURCE_LINES[SOURCE_LINES.length - 1] === "") SOURCE_LINES.pop();
  const bare = SOURCE_LINES.map(line => line.replace(/#.*/, "")).join("\n");
  TITLE = (/^\s*(?:edition\s+\d+\s*;\s*)?program\s+(\w+)/.exec(bare) || ["", "no trace"])[1];
  RUNS = [texts, other].filter(Boolean).map(newRun);
  PARTINGS = RUNS.length > 1 ? Model.partingsOf(...RUNS) : [];
  END = Math.max(...RUNS.map(one => one.end));
  speakOf(0);
}

const nameOf = process => run.processes[process].name;
const grouped = n => n < 10000 ? String(n) : String(n).replace(/\B(?=(\d{3})+$)/g, ",");
const many = (n, one, more) => `${grouped(n)} ${n === 1 ? one : more || one + "s"}`;
const turnsIn = list => list.length === 1 ? `turn ${list[0]}` : `turns ${list[0]} ${list.length === 2 ? "and" : "to"} ${list[list.length - 1]}`;
const listed = words => words.length < 2 ? words.join("") : words.slice(0, -1).join(", ") + " and " + words[words.length - 1];
const conversationOf = block => run.conversations[block.conversation].name;
const blockName = block => block.conversation >= 0 ? `the conversation ${conversationOf(block)}` : `the block on line ${block.line}`;
// The number of a turn; the place behind the last turn that is drawn is the end of the run.
const shownTurn = turn => turn >= END && END > Math.max(...RUNS.map(one => one.last)) ? Math.max(...RUNS.map(one => one.count)) : turn;

/* What the page shows. `width` is that of a column, 0 where the page chooses it; `asked` is the question that was asked last, `kept` the texts of
   the run with which others are compared, and `tell` is told where the statement of the chosen turn stands. */
const state = {
  tell() {}, turn: 0, process: 0, follow: true, survivors: false, width: 0, theme: "", playing: 0, past: false, asked: null, kept: null,
};
