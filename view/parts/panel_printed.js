/* What `rbl run` has written so far; or, of survivors only, what `rbl survive` writes. */
const MOST_LINES = 200, MOST_WORDS = 2000;

// The last of these lines, and how many lie before them.
function linesSoFar(most) {
  const t = state.turn > LAST ? run.count : state.turn;
  if (state.survivors) {
    const turns = survivorsAt(run, Math.min(t, LAST)), before = Math.max(0, turns.length - most);
    return { before, lines: turns.slice(before).map(turn => ({ turn, line: Model.recordOf(run, turn) })) };
  }
  const printed = Model.printed(run, t, most), before = Model.countPrinted(run, t) - printed.length;
  const lines = state.turn >= run.end ? printed.concat(run.ending.map(line => ({ turn: -1, line }))) : printed;
  return { before, lines };
}

function showPrinted() {
  const { before, lines } = linesSoFar(MOST_LINES);
  element("printedtitle").textContent = state.survivors ? "What rbl survive writes" : "What rbl run has written";
  const rows = lines.map(({ turn, line }) => {
    const names = [turn === state.turn ? "new" : "", /^\d+ (reject|error) /.test(line) ? "back" : ""].filter(Boolean).join(" ");
    return `<div${names ? ` class="${names}"` : ""} data-turn="${turn}">${escaped(line)}</div>`;
  });
  const left = before > 0 ? `<p class="note">… ${many(before, "line")} before</p>` : "";
  setMarkup("printed", left + (rows.join("") || '<p class="note">nothing yet</p>'));
}

// The turns around the chosen one in words, made when they are asked for.
function showWords() {
  if (!element("inwords").open) return;
  const first = LAST <= MOST_WORDS ? 1 : Math.min(state.turn, LAST) - MOST_WORDS / 2;
  const from = Math.max(1, first), to = Math.min(LAST, from + MOST_WORDS);
  const turns = [];
  for (let turn = from; turn <= to; turn++) if (run.turns[turn].kind !== "idle") turns.push(turn);
  if (to === LAST && run.end > LAST) turns.push(run.end);
  const isPart = from > 1 || to < LAST, note = `the turns ${grouped(from)} to ${grouped(to)}; open it anew at another turn for others`;
  const left = isPart ? `<li class="note">${note}</li>` : "";
  element("wordlist").innerHTML = left + turns.map(turn => `<li data-turn="${turn}">${escaped(sentence(turn))}</li>`).join("");
}
