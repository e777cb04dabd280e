/* On paper: the texts, how the run came out, and what is shown of it; the picture stands in strips, with what it prints and how to read it, as the
   picture's page prints them. */
function partsOfPicture() {
  const inside = picture.frame.contentWindow, paper = inside && inside.document.getElementById("paper");
  if (!paper || !picture.run) return [];
  inside.dispatchEvent(new Event("beforeprint"));
  const parts = selector => [...paper.querySelectorAll(selector)].map(part => document.importNode(part, true));
  return [...parts(".strip"), made("h2", {}, "What it prints"), ...parts(".output, .howtoread")];
}

function layPaper() {
  const paper = element("paper"), { program, schedule } = texts(), shown = element(`panel-${tabs.chosen.id}`).querySelector("pre");
  paper.replaceChildren(
    made("h1", {}, nameOfProgram()), made("pre", {}, program), made("h2", {}, "Schedule"), made("pre", {}, schedule),
    made("h2", {}, "The run"), made("p", {}, element("outcome").textContent), ...(fault.now ? [made("pre", {}, fault.now.reason)] : []),
    ...(shown ? [made("pre", {}, shown.textContent)] : partsOfPicture()));
}
