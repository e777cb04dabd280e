/* Colours of a text, by the grammar that editors/ has for it: a line is cut by the rule that matches first, as the other editors do it. */
const STYLES = [
  ["comment", "comment"], ["string", "string"], ["invalid", "error"], ["keyword.declaration", "declaration"],
  ["keyword.control.recovery", "recovery"], ["keyword.control", "control"], ["keyword.operator.word", "word"],
  ["keyword.operator.quantifier", "word"], ["constant.numeric", "number"], ["entity.name", "def"],
];
const styleOf = scope => (STYLES.find(([begins]) => scope && scope.startsWith(begins)) || ["", null])[1];

// The rules of some patterns of a grammar, in their order; one that begins a region has the rules of that region.
function rulesOf(grammar, patterns) {
  return patterns.flatMap(({ include, patterns: inner, begin, match, name, captures, beginCaptures }) => {
    if (include) return rulesOf(grammar, [grammar.repository[include.slice(1)]]);
    if (inner && !begin) return rulesOf(grammar, inner);
    const styles = Object.entries(captures || beginCaptures || {}).map(([group, capture]) => [+group, styleOf(capture.name)]);
    const region = begin ? rulesOf(grammar, inner) : null;
    return [{ pattern: new RegExp(begin || match, "dg"), styles: styles.length ? styles : [[0, styleOf(name)]], region }];
  });
}

// The match that comes first in a line, from a place on, and of two at one place the one whose rule comes first.
function firstMatch(rules, line, from) {
  let first = null;
  for (const rule of rules) {
    rule.pattern.lastIndex = from;
    const match = rule.pattern.exec(line);
    if (match && match[0] && (!first || match.index < first.match.index)) first = { rule, match };
  }
  return first;
}

// The pieces of a line, each with its style and its end; braces outside of them tell how deep the next line stands.
function cutLine(line, state) {
  const pieces = [], between = (from, to) => {
    for (const letter of line.slice(from, to)) state.depth = Math.max(0, state.depth + (letter === "{" ? 1 : letter === "}" ? -1 : 0));
  };
  let at = 0;
  for (let found = firstMatch(state.rules, line, at); found; found = firstMatch(state.rules, line, at)) {
    const { rule, match } = found;
    between(at, match.index);
    for (const [group, style] of rule.styles) {
      const [from, to] = match.indices[group] || [0, 0];
      if (from < to) pieces.push({ from, to, style });
    }
    at = match.index + match[0].length;
    if (rule.region) state.rules = rule.region;
  }
  between(at, line.length);
  return pieces;
}

// A mode of the editor for a grammar.
function modeOf(grammar) {
  const rules = rulesOf(grammar, grammar.patterns);
  return {
    startState: () => ({ rules, depth: 0, pieces: [] }),
    copyState: state => ({ ...state }),
    token(stream, state) {
      if (stream.sol()) state.pieces = cutLine(stream.string, state);
      const piece = state.pieces.find(({ to }) => to > stream.pos), isInside = piece && piece.from <= stream.pos;
      stream.pos = piece ? (isInside ? piece.to : piece.from) : stream.string.length;
      return isInside ? piece.style : null;
    },
    indent: (state, behind) => 2 * Math.max(0, state.depth - (behind.startsWith("}") ? 1 : 0)),
    electricInput: /^\s*\}$/,
    lineComment: "#",
  };
}
