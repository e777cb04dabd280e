/* Why a text is refused: what standard error is told, with its place, and what the fault means. */
const fault = { now: null };
const explanations = new Map();

// The fault of a reason: its text and its place, if it has one, its name, and the sentence.
function faultOf(reason) {
  const found = /^(\w+)(?::(\d+):(\d+))?: ([A-Z]\d+): (.*)/.exec(reason);
  if (!found) return { text: "", line: 0, column: 0, name: "", says: reason.split("\n")[0], reason };
  return { text: found[1], line: +found[2] || 0, column: +found[3] || 0, name: found[4], says: found[5], reason };
}

const placeInWords = ({ text, line, column }) => line ? `${text}, line ${line}, column ${column}` : text;

async function explain(name) {
  if (!explanations.has(name)) {
    const told = await ask("rblview", ["explain", name]);
    if (told.status === 0) explanations.set(name, textOfBytes(told.out));
  }
  return explanations.get(name) || "";
}

async function showFault(found) {
  clearMarks();
  fault.now = found;
  element("fault").hidden = !found;
  if (!found) return;
  if (found.line && editors[found.text]) markFault(found);
  element("faultplace").textContent = placeInWords(found);
  element("faultplace").hidden = !found.text;
  element("faultplace").disabled = !found.line;
  element("faultsays").textContent = found.says;
  element("faultname").textContent = found.name ? `What ${found.name} means` : "What was told";
  const end = found.reason.indexOf("\n") + 1 || found.reason.length;
  element("faulttext").replaceChildren(made("span", {}, found.reason.slice(0, end)), found.reason.slice(end));
  element("explained").textContent = "";
  const means = found.name ? await explain(found.name) : "";
  if (fault.now === found) element("explained").textContent = means;
}
