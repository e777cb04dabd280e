/* The trials of the playground that go in every browser. */
"use strict";
const { ROOT, PAGE, OUT, read, example, addressOf, native, same, changedPage } = require("./native.js");
const { Driven } = require("./driven.js");
const fs = require("fs"), path = require("path"), zlib = require("zlib");

const BOTH = ["program", "schedule"];
const COMMANDS = {
  printed: ["run", BOTH], survivors: ["survive", BOTH], alone: ["plain", ["program", "record"]], stuck: ["stuck", BOTH],
  listing: ["code", ["program"]],
};
const LONG = {
  program: "edition 2; program long; process p { var x; while 1 { x := sum i from 1 to 1000 : (sum j from 1 to 1000 : 1); } } end.\n",
  schedule: "p 1000000\n",
};

// What is seen first: step 4 of the walk, its schedule, and the picture of its run.
async function opening(page) {
  await page.open(addressOf(PAGE));
  const { program, schedule } = example("step4");
  same("the first program", await page.text("program"), program);
  same("the first schedule", await page.text("schedule"), schedule);
  same("the first picture", await page.drawn(60), true);
  same("the first outcome", await page.told("outcome"), "After 60 turns: buyer and shop are done.");
  same("the first picture is of the whole run", await page.frame(`d.getElementById("says").textContent.startsWith("The end")`), true);
  same("marks of the first picture", await page.frame(`d.querySelectorAll("#drawing [data-thing], #drawing [data-turn]").length`) > 40, true);
  same("nothing is amiss", await page.isHidden("notice"), true);
  same("what the engine is", /^(not )?proved.* by /.test(await page.told("made")), true);
  await page.browser.picture(path.join(OUT, `${page.browser.constructor.name}.png`));
}

// Each tab against what the program itself prints.
async function lessons(page, names) {
  const all = JSON.parse(zlib.gunzipSync(Buffer.from(await page.told("lessons"), "base64")));
  for (const { name, program, schedule, question } of names ? all.filter(one => names.includes(one.name)) : all) {
    await page.choose(name);
    const record = native("rbl", ["survive", ...BOTH], { program, schedule }).out;
    for (const [tab, [command, takes]] of Object.entries(COMMANDS)) {
      same(`${command} ${name}`, await page.tab(tab), native("rbl", [command, ...takes], { program, schedule, record }).out);
    }
    same(`question of ${name}`, await page.told("question"), question);
    await page.tab("picture");
    const lines = native("rbl", ["run", ...BOTH], { program, schedule }).out, turns = /^end (\d+)$/m.exec(lines)[1];
    same(`picture of ${name}`, await page.drawn(turns), true);
    await page.frame(`d.getElementById("last").click()`);
    const drawn = await page.frame(`[...d.querySelectorAll("#printed div")].map(row => row.textContent).join("\\n")`);
    same(`lines in the picture of ${name}`, drawn.trim(), lines.trim());
  }
}

// A changed text runs by itself, its steps show where they stand, and it can be undone.
async function editing(page) {
  await page.choose("step4");
  const program = example("step4").program.replace("price := 60", "price := 55").replace("bid > 50", "bid > 54");
  await page.type({ program });
  await page.drawn(60);
  same("a changed text", (await page.tab("printed")).includes("34 out shop sells for 55"), true);
  same("the list says so", await page.ask(`document.getElementById("lesson").selectedOptions[0].textContent`), "your own, after step4");
  await page.tab("picture");
  await page.frame(`d.getElementById("last").click()`);
  const chosen = async () => +(await page.frame(`d.getElementById("goto").value`));
  while (await chosen() > 22) await page.frame(`d.getElementById("back").click()`);
  const says = await page.frame(`d.getElementById("says").textContent`);
  same("the turn that goes back", says.startsWith("Turn 22: alternate 1 of the conversation Deal is rejected"), true);
  const marked = `[...document.querySelectorAll("#program .place")].map(part => part.textContent).join("")`;
  same("its statement is marked", await page.until(`${marked} === "ensure bid > 54 within 20"`), true);
  await page.type({ schedule: "all 31\n" });
  await page.drawn(62);
  same("the chosen turn stays", await page.frame(`d.getElementById("goto").value + " " + d.getElementById("of").textContent`), "22 of 62");
  await page.ask(`${Driven.editor("schedule")}.undo()`);
  same("undone", await page.drawn(60), true);
  await page.type({ schedule: "" });
  same("no turns at all", await page.drawn(0), true);
}

// The words are coloured by the grammar of editors/, in each edition.
async function colours(page) {
  const tokens = (name, line) => `${Driven.editor(name)}.getLineTokens(${line}).filter(token => token.type)`;
  const told = (name, line) => page.ask(`${tokens(name, line)}.map(token => token.string + " " + token.type).join(", ")`);
  const styles = async (text, line) => {
    await page.type({ program: text });
    return told("program", line);
  };
  same("words of recovery", await styles("program a;\nprocess p { ensure x > 10 within 9 by { fail; } } # all\nend.\n", 1),
    "process declaration, p def, ensure recovery, 10 number, within recovery, 9 number, by recovery, fail control, # all comment");
  same("a text without an end", await styles('program a;\nprocess p { print "end", "end', 1),
    'process declaration, p def, print control, "end" string, "end error');
  same("names of edition 1", await styles("program a; process p { every := some; }", 0), "program declaration, a def, process declaration, p def");
  same("words of edition 2", await styles("edition 2; program a;\nprocess p { x := sum i from 1 to 9 : i; }", 1),
    "process declaration, p def, sum word, from declaration, 1 number, to declaration, 9 number");
  await page.type({ schedule: "all 3 # p\nbuyer 20" });
  same("words of a schedule", await told("schedule", 0), "all control, 3 number, # p comment");
  same("a process of a schedule", await told("schedule", 1), "buyer def, 20 number");
  await page.type({ program: 'program a; {\n{ # {\n"{"\n}' });
  const depths = await page.ask(`[0, 1, 2, 3].map(line => ${Driven.editor("program")}.getStateAfter(line, true).depth).join()`);
  same("how deep a line stands", depths, "1,2,2,1");
}

// A fault in a text, and what is told of it.
async function fault(page, what, texts, { at, marked }) {
  await page.type(texts);
  const given = { program: await page.text("program"), schedule: await page.text("schedule") }, told = native("rbl", ["run", ...BOTH], given);
  await page.until(`!document.getElementById("fault").hidden`);
  same(`${what}: the reason`, await page.told("faulttext"), told.reason);
  same(`${what}: what is printed`, await page.tab("printed"), told.out);
  const [, name] = /refused (\w+)/.exec(told.out), sentence = told.reason.split("\n")[0].split(`${name}: `)[1];
  same(`${what}: the sentence`, await page.told("faultsays"), sentence);
  await page.until(`document.getElementById("explained").textContent !== ""`);
  same(`${what}: what it means`, await page.told("explained"), native("rblview", ["explain", name], {}).out);
  same(`${what}: the mark`, await page.ask(`[...document.querySelectorAll(".faulty")].map(part => part.textContent).join("")`), marked);
  if (at) await faultyPlace(page, what, at, `${name}: ${sentence}`);
  await page.tab("picture");
}

async function faultyPlace(page, what, [text, line, column], says) {
  same(`${what}: behind the line`, await page.ask(`document.querySelector(".beside").textContent`), says);
  await page.click("faultplace");
  const cursor = JSON.parse(await page.ask(`JSON.stringify((c => [c.line + 1, c.ch + 1])(${Driven.editor(text)}.getCursor()))`));
  same(`${what}: the place`, cursor.join(":"), `${line}:${column}`);
  same(`${what}: the focus`, await page.ask(`${Driven.editor(text)}.hasFocus()`), true);
}

async function faults(page) {
  await page.choose("step1");
  const { program } = example("step1");
  const slip = program.replace("price := 7;", "price := prise;");
  await fault(page, "a name that is none", { program: slip }, { at: ["program", 4, 12], marked: "prise" });
  await page.browser.picture(path.join(OUT, `${page.browser.constructor.name}.fault.png`));
  await fault(page, "an early end", { program: "program a;\nprocess p {\n" }, { at: ["program", 3, 1], marked: "" });
  await fault(page, "a byte past ASCII", { program: "program a; process p { var x; x := 1 ; print \"\u00e4\"; } end.\n" }, { marked: "\u00e4\"" });
  await fault(page, "a word of the schedule", { program, schedule: "# all\np 3\nq 4\n" }, { at: ["schedule", 3, 1], marked: "q" });
  await fault(page, "a carriage return", { program, schedule: "p\r 3\n" }, { at: ["schedule", 1, 1], marked: "p" });
  await fault(page, "a text that is too long", { program: program + " ".repeat(1048576), schedule: "p 3\n" }, { marked: "" });
  await page.choose("step1");
  same("mended", await page.isHidden("fault") && await page.ask(`document.querySelectorAll(".faulty, .beside, .sign").length`) === 0, true);
}

// A link opens the same texts; a reload has the text that was typed last.
async function links(page) {
  const { schedule } = example("step2"), program = example("step2").program.replace("step2", "mine").replace("# ", "# \u00e4 ");
  await page.type({ program, schedule });
  await page.click("link");
  await page.until(`!document.getElementById("linkbox").hidden`);
  const link = await page.ask(`document.getElementById("linktext").value`);
  same("a link to this page", link.startsWith(addressOf(PAGE, "#text=")), true);
  await page.open(link);
  same("the program of a link", await page.text("program"), program);
  same("the schedule of a link", await page.text("schedule"), schedule);
  same("the run of a link", await page.told("outcome"), "After 30 turns: p is done.");
  same("a link takes nothing from what is kept", await page.ask(`localStorage.getItem("rbl.texts")`), null);
  await page.type({ program: program.replace("mine", "kept") });
  same("a changed text leaves the address", await page.ask("location.hash"), "");
  await page.open(addressOf(PAGE), { isKept: true });
  same("the last text is kept", await page.text("program"), program.replace("mine", "kept"));
  await page.open(addressOf(PAGE, "#example=voting"));
  same("a link that names an example", await page.ask(`document.getElementById("lesson").value`), "voting");
  const noTexts = `#text=${zlib.deflateRawSync('{"a":1}').toString("base64url")}`, cut = link.slice(link.indexOf("#"), -9);
  const bad = { cut, "no base64": "#text=%%%", "no texts": noTexts, another: "#hello", "of no example": "#example=none" };
  for (const [what, hash] of Object.entries(bad)) {
    await page.open(addressOf(PAGE, hash));
    same(`a link that is ${what}`, (await page.told("notice")).startsWith("The address of this page holds no program"), true);
    same(`the page goes on behind a link that is ${what}`, await page.told("outcome"), "After 60 turns: buyer and shop are done.");
  }
}

// A run that would last for hours is stopped; then another one runs.
async function stopping(page) {
  await page.open(addressOf(PAGE));
  await page.put(LONG);
  same("a long run can be stopped", await page.until(`!document.getElementById("stop").hidden`), true);
  const from = Date.now();
  await page.ask("new Promise(done => requestAnimationFrame(() => requestAnimationFrame(done)))");
  same("the page stays fluent", Date.now() - from < 2000, true);
  await page.click("stop");
  await page.settled();
  same("it is stopped", await page.told("outcome"), "Stopped.");
  await page.choose("step1");
  same("and another one runs", await page.told("outcome"), "After 20 turns: p is done.");
  await page.put(LONG);
  await page.until(`!document.getElementById("stop").hidden`);
  await page.type(example("step2"));
  same("a changed text does not wait for it", await page.told("outcome"), "After 30 turns: p is done.");
}

// A million turns: what they print, and that they are not drawn.
async function manyTurns(page) {
  const texts = { program: read("bench/one.rbl"), schedule: read("bench/one.schedule") };
  await page.type(texts);
  same("a million turns are not drawn", /has [\d,]+ turns, and one of up to 100,000 turns is drawn/.test(await page.told("picturenote")), true);
  for (const tab of ["printed", "stuck"]) {
    const [command] = COMMANDS[tab];
    same(`${command} of a million turns`, await page.tab(tab), native("rbl", [command, ...BOTH], texts).out);
  }
  const record = native("rbl", ["survive", ...BOTH], texts).out, lines = record.split("\n"), shown = (await page.tab("survivors")).split("\n");
  same("the first of a million survivors", shown.slice(0, 1000).join("\n"), lines.slice(0, 1000).join("\n"));
  same("the last of them", shown.slice(-1000).join("\n"), lines.slice(-1000).join("\n"));
  same("what is left out", shown[1000], `… ${(lines.length - 2000).toLocaleString("en")} lines left out …`);
  const alone = native("rbl", ["plain", "program", "record"], { ...texts, record });
  same("a record that is too long", await page.tab("alone"), `${alone.out}\n${alone.reason}`);
  await page.tab("survivors");
  await page.ask(`document.querySelector("#panel-survivors button").id = "saverecord"`);
  const [name, file] = await page.file("saverecord");
  same("all of them as a file", file === record && name, `${/program (\w+)/.exec(texts.program)[1]}.survive`);
  await page.choose("step4");
  await page.tab("picture");
}

// What is handed out as files.
async function files(page) {
  await page.choose("step5");
  const texts = example("step5"), view = fs.readFileSync(path.join(ROOT, "view/page.html"), "utf8");
  same("the program as a file", (await page.file("programsave")).join("|"), `step5.rbl|${texts.program}`);
  same("the schedule as a file", (await page.file("schedulesave")).join("|"), `step5.schedule|${texts.schedule}`);
  const [name, whole] = await page.file("whole");
  same("one page", name, "step5.html");
  same("the page that rblview makes", whole, native("rblview", ["page", "page", ...BOTH], { ...texts, page: view }).out);
}

// Where the engine breaks down, or memory is wanting, the page says so and goes on.
async function mishaps(page) {
  const calls = "const told = engine.ask(program, words, texts);";
  const trap = `if (words[0] === "stuck") throw new WebAssembly.RuntimeError("unreachable");\n  ${calls}`;
  await page.open(addressOf(changedPage("trapping", [calls, trap])));
  same("a trap is told", await page.tab("stuck"), "The engine broke down (RuntimeError: unreachable); another was started.");
  same("another engine runs", await page.tab("survivors"), native("rbl", ["survive", ...BOTH], example("step4")).out);
  const none = "{ status: 5, out: new Uint8Array(0), reason: new Uint8Array(0) }";
  const wanting = calls.replace("engine.ask", `words[0] === "run" ? ${none} : engine.ask`);
  await page.open(addressOf(changedPage("wanting", [calls, wanting])));
  same("want of memory is told", await page.told("outcome"), "There is not enough memory for this run.");
  same("and the page goes on", await page.tab("stuck"), "ended\n");
}

module.exports = { opening, lessons, editing, colours, faults, links, stopping, manyTurns, files, mishaps };
