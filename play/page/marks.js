/* The place of a fault, marked in its text: the token, a sign at the line's number, and what is said of it behind the line. */
const marked = [];

function clearMarks() {
  for (const mark of marked.splice(0)) mark.clear();
  for (const editor of Object.values(editors)) editor.clearGutter("faults");
}

function placeOf({ text, line, column }) {
  const editor = editors[text], row = Math.min(line - 1, editor.lastLine());
  return { editor, from: { line: row, ch: placeOfColumn(editor.getLine(row), column) } };
}

function markFault(fault) {
  const { editor, from } = placeOf(fault), end = editor.getLine(from.line).length;
  const token = editor.getTokenAt({ line: from.line, ch: Math.min(end, from.ch + 1) });
  const begin = { line: from.line, ch: Math.min(from.ch, Math.max(0, end - 1)) };
  const to = { line: from.line, ch: Math.max(from.ch + 1, Math.min(end, token.end)) };
  const beside = made("span", { class: "beside", "aria-hidden": "true" }, `${fault.name}: ${fault.says}`);
  marked.push(editor.markText(begin, to, { className: "faulty" }));
  marked.push(editor.setBookmark({ line: from.line, ch: end }, { widget: beside, insertLeft: true }));
  editor.setGutterMarker(from.line, "faults", made("span", { class: "sign", title: fault.says }, "●"));
}

// Where the statement stands of the turn that is chosen in the picture, if the picture is of the text as it is.
const statement = [];

function showStatement(places) {
  for (const mark of statement.splice(0)) mark.clear();
  if (!picture.run || picture.run.texts.program !== textIn("program")) return;
  for (const { line, from, to, name } of places) statement.push(editors.program.markText({ line, ch: from }, { line, ch: to }, { className: name }));
  if (places.length && !editors.program.hasFocus()) editors.program.scrollIntoView({ line: places[0].line, ch: 0 }, 50);
}

function goTo(fault) {
  const { editor, from } = placeOf(fault);
  editor.setCursor(from);
  editor.scrollIntoView(from, 60);
  editor.focus();
}
