/* On paper: the sentence, the picture in strips, how to read it, the source, the schedule and the output. Of a long run, its overview and the strips
   up to the chosen turn. */
const MOST_ON_PAPER = 500, MOST_PRINTED_LINES = 400;

// The columns of the strips, from the first to behind the last, and how many stand in each.
function columnsOnPaper(layout, dense, width) {
  const each = dense ? Math.max(80, Math.floor(layout.high * 1.35 / width)) : 62, { count } = layout;
  if (count <= MOST_ON_PAPER) return { from: 0, to: count, each };
  const last = layout.columns ? count : Math.min(count, Math.max(MOST_ON_PAPER, Math.min(state.turn, LAST)));
  const to = Math.min(count, Math.ceil(last / each) * each);
  return { from: Math.max(0, to - Math.floor(MOST_ON_PAPER / each) * each), to, each };
}

function stripsOnPaper() {
  const dense = run.processes.length > DENSE, width = dense ? 8 : 15, turn = Math.min(state.turn, run.end), layout = layOut(run, turn, width);
  const { from, to, each } = columnsOnPaper(layout, dense, width), strips = [];
  for (let at = from; at === from || at < to; at += each) {
    const end = at + each >= layout.count ? 0 : at + each;
    strips.push(`<div class="strip">${pictureFile(turn, width, at, end).replace(/<style>.*?<\/style>/s, "")}</div>`);
  }
  if (from === 0 && to === layout.count) return strips.join("");
  const svg = overview.isShown ? `<svg viewBox="0 0 ${overview.w} ${OVERVIEW.high}" width="100%">${drawOverview()}</svg>` : "";
  const whole = svg && `<div class="strip">${svg}</div>`;
  return `${whole}<p>Above, the whole run; below, the turns ${layout.turnOf(from)} to ${layout.turnOf(to - 1)}.</p>${strips.join("")}`;
}

function layPaper() {
  const { before, lines } = linesSoFar(MOST_PRINTED_LINES), left = before > 0 ? `… ${many(before, "line")} before\n` : "";
  const source = SOURCE_LINES.map((text, k) => `${String(k + 1).padStart(3)}  ${text}`).join("\n");
  const says = element("says").textContent.replace(hintWords(), ""), output = left + lines.map(({ line }) => line).join("\n");
  const head = `<h1>${escaped(TITLE)}${state.survivors ? ": what survived" : ""}</h1><p>${escaped(says)}</p>`;
  const part = (title, name, text) => `<h2>${escaped(title)}</h2><pre class="${name}">${escaped(text)}</pre>`;
  const legend = `<div class="howtoread"><h2>How to read it</h2>${element("helptext").querySelector("table").outerHTML}</div>`;
  const texts = part("Source", "columns", source) + part("Schedule", "", run.schedule.trim());
  element("paper").innerHTML = head + stripsOnPaper() + legend + texts + part(element("printedtitle").textContent, "columns output", output);
}

const listenToPrinting = () => addEventListener("beforeprint", layPaper);
