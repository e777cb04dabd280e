/* What the chosen turn put back, where it ended in a rejection: word by word, of each process that went back, and which turns that undid. */
const MOST_UNDONE = 60;

function backBox(t) {
  if (t < 1 || state.turn > LAST) return "";
  return returnsIn(t).map(back => backOf(back, t)).join("");
}

function backOf(back, t) {
  const process = run.processes[back.process], { words, channels, dropped } = Model.putBackBetween(run, process, t - 1, t);
  const rows = words.map(({ name, was, is }) => `<tr><th scope="row">${escaped(name)}<td><s>${escaped(was)}</s><td>${escaped(is)}`);
  const others = [...channels.map(messagesBack), ...dropped.map(text => `the held line “${escaped(text)}” dropped`)];
  const table = rows.length ? `<table><thead><tr><th>variable<th>before<th>put back to</thead><tbody>${rows.join("")}</tbody></table>` : "";
  const nothing = rows.length || others.length ? "" : `<p class="note">no word differed from then</p>`;
  return `<div class="wentback"><h3>Turn ${grouped(t)} put ${escaped(process.name)} back to turn ${grouped(back.to)}</h3>${table}${nothing}` +
    others.map(text => `<p>${text}</p>`).join("") + `<p class="undoneturns">${undoneButtons(back, t)}</p></div>`;
}

const messagesBack = ({ name, count, isTaken }) => `${many(count, "message")} ${isTaken ? "taken back from" : "given back to"} ${escaped(name)}`;

// The turns that were undone; those that an inner rejection had undone already are pale.
function undoneButtons({ undone }, t) {
  if (!undone.length) return "No turn was undone.";
  const shown = undone.slice(-MOST_UNDONE), left = undone.length - shown.length;
  const how = u => run.undoneIn[u] < t ? ` class="before" title="undone in turn ${run.undoneIn[u]} already"` : "";
  const buttons = shown.map(u => `<button data-go="${u}"${how(u)}>${u}</button>`);
  return `undone: ${left ? `${many(left, "turn")} before, ` : ""}${buttons.join(" ")}`;
}
