/* What the programs themselves answer over texts, and the page that the tests open. */
"use strict";
const child = require("child_process"), fs = require("fs"), os = require("os"), path = require("path");
const cases = require("../view/cases.js");

const ROOT = path.dirname(__dirname);
const PAGE = process.env.PLAYGROUND || path.join(__dirname, "rbl.html");
const OUT = path.join(__dirname, "out");
const PROGRAMS = { rbl: process.env.RBL || path.join(ROOT, "rbl"), rblview: process.env.RBLVIEW || path.join(ROOT, "rblview") };
const folder = fs.mkdtempSync(path.join(os.tmpdir(), "rbl-play-"));
process.on("exit", () => fs.rmSync(folder, { recursive: true, force: true }));
fs.mkdirSync(OUT, { recursive: true });

const read = name => fs.readFileSync(path.join(ROOT, name), "utf8");
const example = name => ({ program: read(`examples/${name}.rbl`), schedule: read(`examples/${name}.schedule`) });
const addressOf = (file, hash = "") => `file://${file}${hash}`;

// A program's status, output and reason; the files are named as in the page.
function native(program, words, texts) {
  for (const [name, text] of Object.entries(texts)) fs.writeFileSync(path.join(folder, name), text);
  const ran = child.spawnSync(PROGRAMS[program], words, { cwd: folder, maxBuffer: 1 << 28 });
  return { status: ran.status, out: ran.stdout.toString(), reason: ran.stderr.toString() };
}

function same(what, is, wanted) {
  cases.told(what, is === wanted ? "" : `it is ${JSON.stringify(is)?.slice(0, 400)}, wanted ${JSON.stringify(wanted)?.slice(0, 400)}`);
}

// A copy of the page that is changed somewhere, to see what it does where something goes wrong.
function changedPage(name, ...changes) {
  let page = fs.readFileSync(PAGE, "utf8");
  for (const [from, to] of changes) {
    if (!page.includes(from)) throw new Error(`the page has no ${from}`);
    page = page.replace(from, () => to);
  }
  const file = path.join(OUT, `${name}.html`);
  fs.writeFileSync(file, page);
  return file;
}

module.exports = { ROOT, PAGE, OUT, read, example, addressOf, native, same, changedPage };
