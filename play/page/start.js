/* The page begins. */
function listen() {
  const does = {
    run: runNow, stop, link: showLink, linkcopy: copyLink, linkclose: hideLink, whole: downloadWhole,
    programopen: () => chooseFile("program"), programsave: () => saveFile("program"),
    scheduleopen: () => chooseFile("schedule"), schedulesave: () => saveFile("schedule"),
    faultplace: () => { if (fault.now && fault.now.line) goTo(fault.now); },
  };
  for (const [id, act] of Object.entries(does)) element(id).addEventListener("click", () => act());
  element("theme").value = theme.chosen;
  element("theme").addEventListener("change", event => { keep("theme", event.target.value); setTheme(event.target.value); });
  addEventListener("hashchange", async () => { if (location.hash.length > 1 && await followAddress()) runNow(); });
  addEventListener("beforeprint", layPaper);
  addEventListener("keydown", event => {
    if (event.key === "Escape" && !element("stop").hidden) stop();
    else if (event.key === "Escape" && !element("panel-schedules").hidden) stopSearch();
    if (event.key === "Escape") element("help").open = false;
  });
  listenToDrops();
}

function textsKept() {
  try {
    const { program, schedule } = JSON.parse(kept("texts"));
    return typeof program === "string" && typeof schedule === "string" ? { program, schedule } : null;
  } catch (none) { return null; }
}

async function start() {
  thread = new Thread(element("worker").textContent, element("module").textContent, made => { element("made").textContent = made; });
  thread.begin();
  const [editor, view, list] = await Promise.all(["editor", "view", "lessons"].map(textPacked));
  picture.page = view;
  addDrawnStyle();
  makeTabs();
  makeSchedules();
  makePicture(view);
  addScript(editor);
  const grammars = JSON.parse(element("grammars").textContent);
  makeEditor("program", "the program", grammars.program);
  makeEditor("schedule", "the schedule", grammars.schedule);
  makeLessons(JSON.parse(list));
  listen();
  if (!await followAddress()) putTexts(textsKept() || lessons.find(one => one.name === FIRST));
  await runNow();
  document.documentElement.dataset.ready = "yes";
}

document.documentElement.dataset.began = "yes";
start().catch(fault => {
  notice(`This page could not begin: ${fault}`);
  document.documentElement.dataset.ready = "no";
});
