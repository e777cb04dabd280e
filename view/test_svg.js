#!/usr/bin/env node
/* Tests the picture that is drawn without a browser: over the examples and random programs each turn and each line that came out is in it, and none
   is wider than it may be; what is no trace is refused by name, however it was damaged.

     node view/test_svg.js */
"use strict";
const child = require("child_process"), fs = require("fs"), os = require("os"), path = require("path");
const { picture, Refusal } = require("./svg.js"), { Model } = require("./load.js"), { program } = require("./programs.js");
const cases = require("./cases.js");

const ROOT = path.dirname(__dirname), SCRIPT = path.join(__dirname, "svg.js");
const RBLVIEW = process.env.RBLVIEW || path.join(ROOT, "rblview");
const RANDOM = 20, WIDEST = 880, PATIENCE = 60000;
const folder = fs.mkdtempSync(path.join(os.tmpdir(), "svg-test-"));
process.on("exit", () => fs.rmSync(folder, { recursive: true }));

const fileOf = (name, text) => { const file = path.join(folder, name); fs.writeFileSync(file, text); return file; };
const sure = (what, holds, why) => cases.told(what, holds ? "" : why);
const traceOf = (source, schedule) => child.spawnSync(RBLVIEW, ["trace", source, schedule], { maxBuffer: 1 << 30, encoding: "latin1" }).stdout;
const example = name => traceOf(...[".rbl", ".schedule"].map(ending => path.join(ROOT, "examples", name + ending)));

// How a picture comes out: nothing if it is drawn, and else the name of the refusal.
function refusalOf(words) {
  try {
    return picture(words) ? "" : "it is empty";
  } catch (error) {
    return error instanceof Refusal ? error.message.split(":")[0] : `${error.stack}`;
  }
}

// What is wrong with the picture of a trace.
function faultOfPicture(trace) {
  const drawn = picture({ trace }), run = Model.readTrace(trace), wide = Number(/<svg [^>]*?width="(\d+)"/.exec(drawn)[1]);
  if (wide > WIDEST) return `it is ${wide} wide`;
  for (let turn = 1; turn <= run.lastBusy; turn++) if (!drawn.includes(`<title>Turn ${turn}:`)) return `turn ${turn} is not in it`;
  const escaped = text => text.replace(/[&<>"']/g, c => `&#${c.charCodeAt(0)};`);
  const lost = run.outs.find(out => out.turn > 0 && !drawn.includes(`“${escaped(out.text)}” comes out of`));
  if (lost) return `the line of turn ${lost.turn} is not in it`;
  const small = [...drawn.matchAll(/font(?:-size)?:[^;}]*?([\d.]+)px/g)].find(size => Number(size[1]) < 10);
  return small ? `a text is ${small[1]} pixels high` : "";
}

function testRuns() {
  const files = fs.readdirSync(path.join(ROOT, "examples"), { recursive: true }).map(String);
  const names = files.filter(name => /^(classics\/)?\w+\.schedule$/.test(name)).map(name => name.slice(0, -".schedule".length));
  for (const name of names) cases.told(`picture of ${name}`, faultOfPicture(example(name)));
  for (let seed = 1; seed <= RANDOM; seed++) {
    const { source, turns } = program(seed);
    const trace = traceOf(fileOf("source", source), fileOf("schedule", turns.map(name => `${name} 1\n`).join("")));
    cases.told(`picture of the random program ${seed}`, faultOfPicture(trace));
  }
}

// Texts that are no trace, and what they are refused as.
function testNames(trace) {
  const lines = trace.split("\n"), turn5 = lines.findIndex(line => line.startsWith("5 turn "));
  const changed = (text, other) => ({ trace: trace.replace(text, other) });
  const wanted = {
    "no-trace": [{ trace: "" }, { trace: "\n" }, { trace: "accepted\n" }, { trace: `\n${trace}` }, { trace: "trace 2\n" }],
    "no-line": [changed("edition", "nonsense"), changed("3 turn buyer", "3 turn butler"), changed("took step", "took steps"),
      changed("3 level buyer 1", "3 level buyer 99"), changed("var buyer rest -", "var buyer price -"), changed("size 2", "size two"),
      changed("1 var buyer rest - 100", "1 var buyer rest 0 100"), changed("offers 60", "offers \u0007"), changed("enter 0", "enter 2")],
    "no-order": [{ trace: [...lines.slice(0, turn5), ...lines.slice(turn5 + 1)].join("\n") }, changed("7 turn", "8 turn"),
      changed("turns 60", "turns 59"), changed("turns 60", "turns 61"), changed("end 60\n", "")],
    "cut-off": [{ trace: `${lines.slice(0, turn5).join("\n")}\n` }, { trace: "trace 1\n" }, { trace: "trace 1" },
      { trace: trace.split("end 60")[0] }],
    "at-odds": [changed("22 back buyer to 3", "22 back buyer to 4"), changed(/11 message .*\n/, "")],
    "no-turns": [{ trace, turns: [0, 5] }, { trace, turns: [9, 5] }, { trace, turns: [1, 61] }],
    "": [{ trace }, { trace, turns: [20, 24] }, { trace, turns: [34, 34] }, { trace: "trace 1\nedition 1\nprocess p\nturns 0\nend 0\n" }],
  };
  for (const [name, texts] of Object.entries(wanted)) {
    texts.forEach((words, k) => { const is = refusalOf(words); sure(`${name || "no refusal"}, ${k + 1}`, is === name, `it is ${is}`); });
  }
}

// However a trace is damaged, it is drawn or refused by name.
function testDamage(name, trace) {
  const lines = trace.split("\n"), begun = Date.now(), wrong = [];
  const tried = (how, text) => {
    const is = refusalOf({ trace: text });
    if (!/^([a-z]+-[a-z]+)?$/.test(is)) wrong.push(`${how}: ${is}`);
  };
  for (let k = 0; k < lines.length && Date.now() - begun < PATIENCE; k++) {
    const [before, line, behind] = [lines.slice(0, k), lines[k], lines.slice(k + 1)], words = line.split(" ");
    tried(`without line ${k + 1}`, [...before, ...behind].join("\n"));
    tried(`line ${k + 1} twice`, [...before, line, line, ...behind].join("\n"));
    tried(`line ${k + 1} behind the next`, [...before, ...behind.slice(0, 1), line, ...behind.slice(1)].join("\n"));
    const word = k % words.length, other = /^\d+$/.test(words[word]) ? ["0", "9999999999", "1"][k % 3] : "p";
    tried(`line ${k + 1} with another word`, [...before, words.map((one, n) => n === word ? other : one).join(" "), ...behind].join("\n"));
    tried(`cut in line ${k + 1}`, [...before, line.slice(0, line.length / 2)].join("\n"));
  }
  cases.told(`${name}, damaged in each line`, wrong.slice(0, 3).join("; "));
}

// What the script does with words: its status, and how it begins to speak on each of the two outputs.
function testWords(trace) {
  const file = fileOf("step4.trace", trace), source = path.join(ROOT, "examples/step4.rbl"), usage = "usage: node view/svg.js";
  const steps = [...Array(2001).keys()].map(k => `${k + 1} turn p 1:1 took step\n`).join("");
  const long = fileOf("long", `trace 1\nedition 1\nprocess p\nturns 2001\n${steps}end 2001\n`);
  const others = [["--turns", file], ["--turns", "1"], ["--source"], ["-x"], [""], [file, file], ["--turns", "1-2", "--turns", "1-2"]];
  const rows = [
    [["--help"], "", 0, usage, ""], [[file], "", 0, "<?xml", ""], [[], trace, 0, "<?xml", ""], [["-"], trace, 0, "<?xml", ""],
    [["--source", source, file], "", 0, "<?xml", ""], [["--turns", "1-9", "--source", source, "-"], trace, 0, "<?xml", ""],
    [[], "", 2, "", "svg: no-trace: "], [[path.join(folder, "none")], "", 2, "", "svg: unread: "], [[folder], "", 2, "", "svg: unread: "],
    [["--source", folder, file], "", 2, "", "svg: unread: "],
    [[long], "", 2, "", "svg: too-long: "], [["--turns", "2-2001", long], "", 0, "<?xml", ""],
    [["--turns", "9-61", file], "", 2, "", "svg: no-turns: "],
    ...others.map(words => [words, "", 2, "", usage]),
  ];
  for (const [words, input, ...wanted] of rows) {
    const how = { input, encoding: "utf8", timeout: PATIENCE, maxBuffer: 1 << 30 };
    const { status, stdout, stderr } = child.spawnSync("node", [SCRIPT, ...words], how);
    const is = [status, stdout.slice(0, wanted[1].length || 9), stderr.slice(0, wanted[2].length || 9)];
    sure(`svg.js ${words.join(" ").replaceAll(folder, "FOLDER").replaceAll(ROOT, ".")}`, is.join("|") === wanted.join("|"), JSON.stringify(is));
  }
  const full = fs.existsSync("/dev/full") && child.spawnSync("node", [SCRIPT, file], { stdio: ["ignore", fs.openSync("/dev/full", "w"), "pipe"] });
  sure("an output that can't be written", !full || full.status === 4, `status ${full.status}`);
  const named = [{ trace, source: fs.readFileSync(source, "latin1") }, { trace, name: "fourth" }, { trace }];
  const titles = named.map(words => /<title>(.*?):/.exec(picture(words))[1]);
  sure("the title", titles.join("; ") === "Run of step4; Run of fourth; Run of a program", titles.join("; "));
}

const trace = example("step4");
testRuns();
testNames(trace);
for (const name of ["step4", "step5", "recovery", "exhausted"]) testDamage(name, example(name));
testWords(trace);
cases.end();
