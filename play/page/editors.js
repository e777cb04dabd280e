/* The two editors. A text stays byte for byte as it was opened: only LF ends a line. */
const editors = {};
// The key Tab goes on to the next part of the page, as everywhere.
const KEYS_OF_EDITORS = {
  Tab: false, "Shift-Tab": false, "Ctrl-/": "toggleComment", "Cmd-/": "toggleComment", "Ctrl-Enter": () => runNow(), "Cmd-Enter": () => runNow(),
};

function makeEditor(name, title, grammar) {
  CodeMirror.defineMode(`rbl-${name}`, () => modeOf(grammar));
  editors[name] = CodeMirror(element(name), {
    mode: `rbl-${name}`, theme: "rbl", lineNumbers: true, lineSeparator: "\n", lineWrapping: true, inputStyle: "contenteditable",
    screenReaderLabel: title, matchBrackets: true, gutters: ["CodeMirror-linenumbers", "faults"], indentUnit: 2, dragDrop: false,
    maxHighlightLength: 20000, extraKeys: KEYS_OF_EDITORS,
  });
  editors[name].on("change", (_, change) => {
    if (change.origin === "setValue") return;
    forgetLink();
    notice("");
    changed();
  });
  indentWrapped(editors[name]);
  if (name === "program") editors[name].on("gutterClick", (_, line) => tellPicture({ line: line + 1 }));
}

// What goes on behind the edge stands as far in as its line begins.
function indentWrapped(editor) {
  const wide = editor.defaultCharWidth();
  editor.on("renderLine", (_, line, node) => {
    const indent = (line.text.length - line.text.trimStart().length + 2) * wide;
    Object.assign(node.style, { textIndent: `${-indent}px`, paddingLeft: `${indent + 4}px` });
  });
}

const textIn = name => editors[name].getValue();
const texts = () => ({ program: textIn("program"), schedule: textIn("schedule") });

// Puts texts in place of those that are there, so that they can be undone as any change.
function putTexts(given) {
  for (const name of Object.keys(editors)) if (name in given && given[name] !== textIn(name)) editors[name].setValue(given[name]);
  changed();
}
