/* The picture of a run: the page of view/ in a frame, which is told each run and draws it. */
const MOST_DRAWN = 100000;
const LONG = `one of up to ${many(MOST_DRAWN, "turn")} is drawn. The other tabs tell of it.`;
const OLD = "This is the picture of the last run, before the texts were changed.";
const picture = { frame: null, isReady: null, run: null };

// The frame, empty and unseen at first.
function makePicture(page) {
  const frame = picture.frame = made("iframe", { id: "frame", class: "blank", title: "the picture of the run: the arrow keys step through it" });
  element("panel-picture").append(made("p", { class: "note", id: "picturenote", hidden: "" }), frame);
  picture.isReady = new Promise(done => frame.addEventListener("load", done, { once: true }));
  frame.srcdoc = page;
  theme.tell = () => tellPicture({});
  addEventListener("message", ({ source, data }) => { if (source === frame.contentWindow) showStatement(data.places); });
}

async function tellPicture(told) {
  await picture.isReady;
  picture.frame.contentWindow.postMessage({ ...told, theme: document.documentElement.dataset.theme }, "*");
}

// What the picture is of, where it is not of the texts as they stand.
function notePicture(says) {
  if (says) showStatement([]);
  element("picturenote").textContent = says;
  element("picturenote").hidden = !says;
  picture.frame.classList.toggle("old", Boolean(says));
}

async function fillPicture(tab, run) {
  const told = await run.answer("run", BOTH);
  if (run !== current || picture.run === run) return;
  if (told.status !== 0) return notePicture(picture.run ? OLD : "There is no run to draw.");
  const turns = turnsOf(textOfBytes(told.out));
  if (turns > MOST_DRAWN) return notePicture(`This run has ${many(turns, "turn")}, and ${LONG}`);
  const trace = await run.answer("trace", BOTH, "rblview");
  if (run !== current) return;
  if (trace.status !== 0) return notePicture("This run is not drawn.");
  picture.run = run;
  notePicture("");
  tellPicture({ source: run.texts.program, schedule: run.texts.schedule, trace: textOfBytes(trace.out) });
  picture.frame.classList.remove("blank");
}
