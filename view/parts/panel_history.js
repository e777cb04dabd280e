/* The history of a variable that was asked for: every value with its turn, those that were undone struck out. */
const MOST_CHANGES = 11, CURVE = 120;

function historyBox(process, t) {
  const { asked } = state;
  if (!asked || asked.kind !== "variable" || asked.key.process !== process.name) return "";
  const { values, label } = asked, changes = Model.changesOf(run, values), at = Model.countUpTo(values.turns, t) - 1;
  const first = Math.max(0, Math.min(changes.length - MOST_CHANGES, at - MOST_CHANGES + 4)), behind = changes.length - first - MOST_CHANGES;
  const rows = changes.slice(first, first + MOST_CHANGES).map(change => changeRow(change, t, change.turn === values.turns[at]));
  const last = values.turns[at], off = last === t ? " disabled" : "";
  const button = last ? `<button data-go="${last}"${off}>‹ last turn that changed it: ${grouped(last)}</button>` : "Nothing has changed it yet.";
  return `<div class="history"><h3>${escaped(label)}</h3>${elementsOf(process, asked)}${curveOf(values, t)}<p>${button}</p>` +
    (first ? `<p class="note">${many(first, "value")} before</p>` : "") + `<ol>${rows.join("")}</ol>` +
    (behind > 0 ? `<p class="note">${many(behind, "value")} behind</p>` : "") + "</div>";
}

function changeRow({ turn, value, isBack, undoneIn }, t, isLast) {
  const isGone = undoneIn && undoneIn <= t, how = turn === 0 ? "the opening" : isBack ? "put back" : isGone ? `undone in ${grouped(undoneIn)}` : "";
  const names = [isGone ? "undone" : "", isLast ? "last" : "", turn > t ? "later" : "", isBack ? "back" : ""].filter(Boolean).join(" ");
  return `<li class="${names}"><button data-go="${turn}"><i>${grouped(turn)}</i><b>${escaped(value)}</b><span>${how}</span></button></li>`;
}

// Of an array, its elements to choose from.
function elementsOf(process, { key }) {
  const variable = process.variables.find(v => v.name === key.name);
  if (variable.size === null) return "";
  const buttons = variable.values.map((_, k) =>
    `<button data-variable="${escaped(key.name)}" data-index="${k}" aria-pressed="${k === key.index}" aria-label="element ${k}">${k}</button>`);
  return `<p class="elements">${buttons.join("")}</p>`;
}

// Its values over the turns that the picture shows.
function curveOf(values, t) {
  const { from, to } = windowOfPicture(), numbers = [];
  for (let k = 0; k <= CURVE; k++) numbers.push(Number(values.at(Math.round(from + (to - from) * k / CURVE))));
  const low = Math.min(...numbers), high = Math.max(...numbers), now = CURVE * (t - from) / Math.max(1, to - from);
  const y = value => high === low ? 20 : 36 - 32 * (value - low) / (high - low);
  const path = numbers.map((value, k) => k ? `H${k}V${y(value).toFixed(1)}` : `M0 ${y(value).toFixed(1)}`).join("");
  const chosen = now >= 0 && now <= CURVE ? `<path class="at" d="M${now.toFixed(1)} 0V40"/>` : "";
  const named = `role="img" aria-label="its values in the turns that the picture shows, from ${low} to ${high}"`;
  const svg = `<svg viewBox="0 0 ${CURVE} 40" preserveAspectRatio="none" ${named}><path d="${path}"/>${chosen}</svg>`;
  return `<p class="curve">${svg}<span>${high}</span><span>${low}</span></p>`;
}
