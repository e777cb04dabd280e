/* Where recovery blocks and their alternates stand in the text of a source. Blocks are numbered by their words `ensure` from 0. */

// The tokens of a source that tell blocks and statements apart: its words, braces and semicolons, each with its place. Comments and texts hold none.
function wordsOfSource(lines) {
  const found = [];
  lines.forEach((text, line) => {
    for (const match of text.matchAll(/#.*|"[^"]*"?|[A-Za-z][A-Za-z0-9_]*|[{};]/g)) {
      if (/^[#"]/.test(match[0])) continue;
      found.push({ word: match[0], line, from: match.index, to: match.index + match[0].length });
    }
  });
  return found;
}

// The place in `words` behind the brace that closes the one at `at`.
function behindBrace(words, at) {
  for (let depth = 0; at < words.length; at++) {
    if (words[at].word === "{") depth++;
    if (words[at].word === "}" && --depth === 0) return at + 1;
  }
  return at;
}

// The blocks of a source: the word `ensure`, and the first and the last brace of each alternate, the first alternate at 1.
function blocksOfSource(lines) {
  const words = wordsOfSource(lines), blocks = [];
  words.forEach((word, k) => {
    if (word.word !== "ensure") return;
    const block = { ensure: word, alternates: [null] };
    let at = words.findIndex((w, n) => n > k && w.word === "by");
    while (at >= 0 && words[at] && words[at].word === "by" && words[at + 1] && words[at + 1].word === "{") {
      const end = behindBrace(words, at + 1);
      block.alternates.push({ from: words[at + 1], to: words[end - 1] });
      at = words[end] && words[end].word === "else" ? end + 1 : -1;
    }
    blocks.push(block);
  });
  return blocks;
}

// The word with which the statement at a place begins, where it begins with one: a name or an operand behind it is what a trace tells.
function beginOfStatement(words, { line, column }) {
  let at = words.findIndex(w => w.line > line - 1 || (w.line === line - 1 && w.from >= column - 1));
  at = at < 0 ? words.length : at;
  while (at > 0 && words[at - 1].word === "not") at--;
  const before = words[at - 1];
  return before && ["print", "send", "receive", "call", "if", "while"].includes(before.word) ? before : null;
}

// The line on which a process begins, or -1.
function lineOfProcess(lines, name) {
  const words = wordsOfSource(lines);
  const at = words.findIndex((w, k) => w.word === "process" && words[k + 1] && words[k + 1].word === name);
  return at < 0 ? -1 : words[at].line;
}

