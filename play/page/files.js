/* Texts from files, and to files. */
const ENDINGS = { program: ".rbl", schedule: ".schedule" };
const NAMED = /^\s*(?:edition\s+\d+\s*;\s*)?program\s+([A-Za-z]\w*)/;
const nameOfProgram = () => (NAMED.exec(textIn("program").replace(/#.*/g, "")) || ["", "program"])[1];

// A file becomes a text, if it is one.
async function openFile(name, file) {
  if (file.size > MOST_BYTES) return notice(`${file.name} has ${many(file.size, "byte")}, and a text may have ${many(MOST_BYTES, "byte")}.`);
  const text = textOfFile(new Uint8Array(await file.arrayBuffer()));
  if (text === null) return notice(`${file.name} is no text: its bytes are not UTF-8.`);
  notice("");
  lesson = null;
  forgetLink();
  putTexts({ [name]: text });
  return runNow();
}

function chooseFile(name) {
  const input = element("file");
  input.onchange = () => { if (input.files.length) openFile(name, input.files[0]); input.value = ""; };
  input.click();
}

const saveFile = name => download(nameOfProgram() + ENDINGS[name], "text/plain;charset=utf-8", textIn(name));

// The page that `rblview page` makes.
async function downloadWhole() {
  const { program, schedule } = texts();
  const told = await ask("rblview", ["page", "page", ...BOTH], [picture.page, program, schedule]);
  if (told.status === 0) return download(`${nameOfProgram()}.html`, "text/html", told.out);
  return notice(told.isStopped ? "Stopped." : "There is no page of this run: it is refused, or it is too long.");
}

// Files can be dropped anywhere; one that ends so is a schedule.
function listenToDrops() {
  document.addEventListener("dragover", event => { if (event.dataTransfer.types.includes("Files")) event.preventDefault(); }, true);
  document.addEventListener("drop", async event => {
    if (!event.dataTransfer.files.length) return;
    event.preventDefault();
    event.stopPropagation();
    for (const file of [...event.dataTransfer.files]) await openFile(file.name.endsWith(ENDINGS.schedule) ? "schedule" : "program", file);
  }, true);
}
