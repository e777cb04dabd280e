/* Tells whether a text is a trace: each line has one of the forms of docs/VIEW.md, over the names of its head, and the turns go on by one. */
"use strict";
const MOST_ELEMENTS = 1024, MOST_LEVELS = 32;

// The forms of lines by their first word, or by that behind the number of a turn. A word in capitals stands for what WORDS takes.
const HEAD = {
  edition: ["edition EDITION"], process: ["process NEW_PROCESS"], var: ["var PROCESS NEW_VARIABLE SIZE"],
  channel: ["channel NEW_CHANNEL from PROCESS to PROCESS size NUMBER"],
  conversation: ["conversation NEW_CONVERSATION parent AROUND alternates NUMBER members PROCESSES"],
  block: ["block NEW_BLOCK line NUMBER conversation AROUND within NUMBER alternates NUMBER"],
  turns: ["turns COUNT"],
};
const KINDS = ["idle", "undone", "waits at line CONVERSATION", "waits for room CHANNEL", "waits for message CHANNEL", "took enter BLOCK",
  "took start BLOCK NUMBER", "took send CHANNEL", "took receive CHANNEL", "took step"];
const TURN = {
  turn: KINDS.map(kind => `turn PROCESS PLACE ${kind}`),
  reject: ["reject PROCESS ensure NUMBER NUMBER WORD", "reject CONVERSATION NUMBER by PROCESS WORD"], error: ["error PROCESS WORD"],
  pass: ["pass CONVERSATION NUMBER"], out: ["out PROCESS TEXT"], done: ["done PROCESS"],
  back: ["back PROCESS to EARLIER"], var: ["var PROCESS VARIABLE INDEX VALUE"], levels: ["levels PROCESS NUMBER"],
  level: ["level PROCESS LEVEL block BLOCK alternate NUMBER used NUMBER entered EARLIER"], held: ["held PROCESS NUMBER"],
  line: ["line PROCESS NUMBER TEXT"],
  state: ["state PROCESS runs", "state PROCESS line", "state PROCESS done", "state PROCESS failed WORD"],
  channel: ["channel CHANNEL sent NUMBER taken NUMBER seen NUMBER free NUMBER"], message: ["message CHANNEL NUMBER VALUE"],
  conversation: ["conversation CONVERSATION alternate NUMBER", "conversation CONVERSATION broken"],
};

const NAME = /^[A-Za-z]\w*$/, NUMBER = /^\d{1,10}$/;
const isNew = (list, word) => NAME.test(word) && !list.has(word) && Boolean(list.add(word));

// Whether a word is what stands for it in a form; `known` is what was read so far.
const WORDS = {
  EDITION: word => /^[12]$/.test(word), NUMBER: word => NUMBER.test(word), WORD: word => NAME.test(word), VALUE: word => /^-?\d{1,20}$/.test(word),
  PLACE: word => /^(-|\d{1,10}:\d{1,10})$/.test(word), SIZE: (word, known) => sized(known, word),
  COUNT: (word, known) => NUMBER.test(word) && (known.count = Number(word)) >= 0,
  NEW_PROCESS: (word, known) => isNew(known.processes, word) && Boolean(known.variables.set(word, new Map())),
  NEW_VARIABLE: (word, known) => NAME.test(word) && !known.variables.get(known.process).has(known.variable = word),
  NEW_CHANNEL: (word, known) => isNew(known.channels, word), NEW_CONVERSATION: (word, known) => isNew(known.conversations, word),
  NEW_BLOCK: (word, known) => word === String(known.blocks) && ++known.blocks > 0,
  PROCESS: (word, known) => known.processes.has(known.process = word), CHANNEL: (word, known) => known.channels.has(word),
  CONVERSATION: (word, known) => known.conversations.has(word), AROUND: (word, known) => word === "-" || known.conversations.has(word),
  LEVEL: word => NUMBER.test(word) && Number(word) >= 1 && Number(word) <= MOST_LEVELS,
  BLOCK: (word, known) => NUMBER.test(word) && Number(word) < known.blocks,
  VARIABLE: (word, known) => known.variables.get(known.process).has(known.variable = word),
  INDEX: (word, known) => isIndex(word, known.variables.get(known.process).get(known.variable)),
  EARLIER: (word, known) => NUMBER.test(word) && Number(word) <= known.turn,
};
// What stands for all that is left of a line.
const RESTS = {
  TEXT: words => words.every(word => /^[\t!-~]*$/.test(word)),
  PROCESSES: (words, known) => words.length > 0 && words.every(word => known.processes.has(word)),
};

function sized(known, word) {
  if (word !== "-" && !(NUMBER.test(word) && Number(word) >= 1 && Number(word) <= MOST_ELEMENTS)) return false;
  return Boolean(known.variables.get(known.process).set(known.variable, word === "-" ? null : Number(word)));
}
const isIndex = (word, size) => size === null ? word === "-" : NUMBER.test(word) && Number(word) < size;

// Whether words have a form.
function hasForm(form, words, known) {
  const wanted = form.split(" ");
  for (let k = 0; k < wanted.length; k++) {
    const rest = RESTS[wanted[k]], one = WORDS[wanted[k]];
    if (rest) return rest(words.slice(k), known);
    if (words[k] === undefined || !(one ? one(words[k], known) : words[k] === wanted[k])) return false;
  }
  return words.length === wanted.length;
}

const isOneOf = (forms, words, known) => Object.hasOwn(forms, words[0]) && forms[words[0]].some(form => hasForm(form, words, known));

// What is wrong with a line of a turn, or nothing.
function faultOfTurn(text, known) {
  const [number, ...words] = text.split(" "), begins = words[0] === "turn" && number === String(known.turn + 1);
  if (!begins && number !== String(known.turn)) return "no-order";
  if (begins) known.turn++;
  return isOneOf(TURN, words, known) && (begins || words[0] !== "turn") ? "" : "no-line";
}

/* The first fault of a text that is to be a trace: its name and its line; nothing where there is none. A trace ends with an LF, and what stands
   behind its line `end` is taken as it is. */
function faultOfTrace(text) {
  const names = { processes: new Set(), channels: new Set(), conversations: new Set(), variables: new Map() };
  const lines = text.split("\n"), known = { ...names, blocks: 0, turn: 0 };
  if (lines[0] !== "trace 1") return { name: "no-trace", line: 1 };
  for (let k = 1; k < lines.length - 1; k++) {
    if (known.count !== undefined && lines[k] === `end ${known.count}` && known.turn === known.count) return null;
    if (known.count !== undefined) {
      const name = faultOfTurn(lines[k], known);
      if (name) return { name, line: k + 1 };
    } else if (!isOneOf(HEAD, lines[k].split(" "), known)) return { name: "no-line", line: k + 1 };
  }
  return { name: "cut-off", line: lines.length };
}

module.exports = { faultOfTrace };
