#!/usr/bin/env node
/* Tests the playground in Chromium, as somebody uses it, against what the programs themselves print; screenshots are left in play/out.

     node play/test_playground.js

   RBL and RBLVIEW may name the two programs, CHROMIUM the browser, PLAYGROUND another page than play/rbl.html. */
"use strict";
const http = require("http"), fs = require("fs"), path = require("path"), zlib = require("zlib");
const { Browser } = require("../view/browser.js"), cases = require("../view/cases.js");
const { PAGE, OUT, example, addressOf, changedPage, same } = require("./native.js");
const { Driven, inTurn, wait } = require("./driven.js"), trials = require("./trials.js"), pictures = require("./trials_picture.js");
const schedules = require("./trials_schedules.js");

const SHIFT = 8;

// The browser, opened by addresses, and what it has asked the world for.
class Chromium extends Browser {
  static async begin(program) {
    const browser = Object.assign(await Chromium.start(program), { requests: [] });
    await browser.send("Network.enable");
    return browser;
  }
  hear(told) {
    if (told.method === "Network.requestWillBeSent") this.requests.push(told.params.request.url);
    super.hear(told);
  }
  async open(address) {
    await this.send("Page.navigate", { url: address });
    await wait(50);
  }
  size(width, height) { return this.send("Emulation.setDeviceMetricsOverride", { width, height, deviceScaleFactor: 1, mobile: width < 600 }); }
  shot(name) { return this.picture(path.join(OUT, `${name}.png`)); }
}

// The policy lets nothing out, from the page as from the picture's frame.
async function nothingGoesOut(page) {
  await page.open(addressOf(PAGE));
  const adds = (tag, has) => `w.document.body.append(Object.assign(w.document.createElement("${tag}"), ${JSON.stringify(has)}))`;
  const tries = {
    fetch: "w.fetch('https://example.invalid/').catch(() => 0)", socket: "new w.WebSocket('wss://example.invalid/')",
    beacon: "w.navigator.sendBeacon('https://example.invalid/', 'a')", image: "new w.Image().src = 'https://example.invalid/a.png'",
    frame: adds("iframe", { src: "https://example.invalid/" }), script: adds("script", { src: "https://example.invalid/a.js" }),
    inline: adds("script", { textContent: "broken = 1" }), evaluation: "w.Function('return 1')",
    style: adds("link", { rel: "stylesheet", href: "https://example.invalid/a.css" }),
  };
  for (const [where, from] of [["the page", "window"], ["the frame", "document.getElementById('frame').contentWindow"]]) {
    for (const [what, act] of Object.entries(tries)) {
      const isRefused = await page.ask(`new Promise(done => {
        const w = ${from};
        w.document.addEventListener("securitypolicyviolation", () => done(true), { once: true });
        setTimeout(() => done(false), 3000);
        setTimeout(() => { ${act}; });
      })`);
      same(`${what} from ${where} is refused`, isRefused, true);
    }
  }
  same("nothing broke in", await page.ask("typeof broken"), "undefined");
  const isOwn = address => /^(file|about|blob|data):|^https?:\/\/(127\.0\.0\.1|example\.invalid)/.test(address);
  same("nothing went out", page.browser.requests.filter(address => !isOwn(address)).join(), "");
}

// A browser that lacks something is told so; the texts that are there can be read.
async function oldBrowsers(page) {
  for (const lacks of ["WebAssembly", "DecompressionStream"]) {
    const { identifier } = await page.browser.send("Page.addScriptToEvaluateOnNewDocument", { source: `delete window.${lacks}` });
    await page.open(addressOf(PAGE));
    same(`without ${lacks}`, (await page.told("notice")).startsWith(`This browser has no ${lacks}, so it can not run the engine.`), true);
    await page.browser.send("Page.removeScriptToEvaluateOnNewDocument", { identifier });
  }
  const other = `id="page">${zlib.gzipSync("not ours").toString("base64")}</script><script type="text/plain">`;
  await page.open(addressOf(changedPage("unread", ['id="page">', other])));
  same("scripts that are not read", (await page.told("notice")).startsWith("This browser does not read the page's scripts, so it can not"), true);
}

// Files that are chosen: a text, one that is none, and one that is too long.
async function chosenFiles(page) {
  const give = async (name, content) => {
    const file = path.join(OUT, name);
    fs.writeFileSync(file, content);
    const { root } = await page.browser.send("DOM.getDocument");
    const { nodeId } = await page.browser.send("DOM.querySelector", { nodeId: root.nodeId, selector: "#file" });
    await page.browser.send("DOM.setFileInputFiles", { files: [file], nodeId });
    await wait(300);
    await page.settled();
  };
  await page.open(addressOf(PAGE));
  await page.ask("HTMLInputElement.prototype.click = () => {}");
  await page.click("programopen");
  await give("chosen.rbl", example("step6").program);
  same("a chosen file", await page.text("program"), example("step6").program);
  await give("bytes.rbl", Buffer.from([0x70, 0xff, 0xfe]));
  same("bytes that are no text", await page.told("notice"), "bytes.rbl is no text: its bytes are not UTF-8.");
  await give("long.rbl", " ".repeat(1048577));
  same("a file that is too long", await page.told("notice"), "long.rbl has 1,048,577 bytes, and a text may have 1,048,576 bytes.");
  same("the page goes on", await page.text("program"), example("step6").program);
  await page.click("scheduleopen");
  await give("chosen.schedule", "p 3\n");
  same("a chosen schedule", await page.text("schedule"), "p 3\n");
  same("its run", await page.told("outcome"), "After 3 turns: p has failed; q is still open.");
}

// All that can be used has a name, the keyboard reaches it, and nothing holds the focus.
async function keyboard(page) {
  await page.open(addressOf(PAGE));
  const { nodes } = await page.browser.send("Accessibility.getFullAXTree");
  const used = nodes.filter(node => !node.ignored && /^(button|combobox|textbox|tab|tablist|tabpanel|region|Iframe)$/.test(node.role?.value));
  same("names", used.filter(node => !node.name?.value).map(node => node.role.value).join(), "");
  const names = used.filter(node => node.role.value === "button").map(node => node.name.value);
  same("no two buttons of one name", names.filter((name, k) => names.indexOf(name) < k).join(), "");
  same("a live outcome", await page.ask(`document.getElementById("outcome").getAttribute("aria-live")`), "polite");
  const reached = [];
  await page.ask("document.activeElement.blur()");
  for (let k = 0; k < 22; k++) {
    await page.browser.key("Tab");
    reached.push(await page.ask(`document.activeElement.id || document.activeElement.closest(".editor")?.id || document.activeElement.tagName`));
  }
  for (const id of ["lesson", "run", "link", "whole", "theme", "programopen", "program", "schedule", "tab-picture", "frame"]) {
    same(`the key Tab reaches ${id}`, reached.includes(id), true);
  }
  await page.ask(`document.getElementById("tab-picture").focus()`);
  const order = [];
  for (const key of ["ArrowRight", "ArrowRight", "End", "ArrowRight", "ArrowLeft", "Home"]) {
    await page.browser.key(key);
    const chosen = `document.querySelector("[role=tab][aria-selected=true]")`;
    order.push(await page.ask(`(tab => tab.id.slice(4) + (document.activeElement === tab ? "" : "!"))(${chosen})`));
  }
  same("arrow keys choose tabs", order.join(" "), "printed survivors listing picture listing picture");
  await page.ask(`${Driven.editor("schedule")}.focus()`);
  await page.browser.key("Tab", SHIFT);
  same("the editor lets the key Tab through", await page.ask(`document.activeElement.id`), "schedulesave");
}

// The outcomes by the keyboard alone: the button of the search, each outcome, and Enter, which opens one.
async function keysOfSchedules(page) {
  await page.open(addressOf(PAGE));
  await page.tab("schedules");
  await page.ask(`document.getElementById("tab-schedules").focus()`);
  const reached = [];
  for (let k = 0; k < 4; k++) {
    await page.browser.key("Tab");
    reached.push(await page.ask(`document.activeElement.getAttribute("aria-label") || document.activeElement.textContent`));
  }
  const outcomes = ["1 ended after 27 turns", "2 ended after 38 turns"];
  same("the key Tab reaches outcomes", reached.join("; "), ["Explore all schedules", ...outcomes, "Save what explore prints"].join("; "));
  await page.browser.key("Tab", SHIFT);
  await page.browser.send("Input.dispatchKeyEvent", { type: "keyDown", key: "Enter", windowsVirtualKeyCode: 13, text: "\r" });
  same("the key Enter opens one", await page.drawn(38), true);
  same("the focus is on its picture's tab", await page.ask("document.activeElement.id"), "tab-picture");
  const { nodes } = await page.browser.send("Accessibility.getFullAXTree");
  same("names with it", nodes.filter(({ ignored, role, name }) => !ignored && role?.value === "button" && !name?.value).length, 0);
}

// On a phone nothing is wider than the page; dark colours reach the picture.
async function looks(page) {
  await page.browser.size(390, 844);
  await page.open(addressOf(PAGE));
  await page.drawn(60);
  same("a phone's width", await page.ask("document.documentElement.scrollWidth <= innerWidth"), true);
  await page.browser.shot("phone");
  await page.browser.size(1400, 900);
  await page.select("theme", "dark");
  const isDark = `document.getElementById("frame").contentDocument.documentElement.dataset.theme === "dark"`;
  same("dark colours in the picture", await page.until(isDark), true);
  await page.browser.shot("dark");
  await page.open(addressOf(PAGE), { isKept: true });
  same("the theme is kept", await page.ask("document.documentElement.dataset.theme"), "dark");
  await page.ask("dispatchEvent(new Event('beforeprint'))");
  same("texts on paper", await page.ask(`document.getElementById("paper").textContent.includes("converse Deal ensure")`), true);
  same("the picture on paper", await page.ask(`document.querySelectorAll("#paper .strip svg .lane, #paper .strip svg .base").length > 0`), true);
}

// Outcomes on a phone, in a window of middling width, and in a wide one, in both themes: nothing is wider than the page.
async function looksOfOutcomes(page) {
  for (const [name, width, height, theme] of [["phone", 390, 844, "light"], ["middling", 768, 1024, "dark"], ["wide", 1440, 900, "light"]]) {
    await page.browser.size(width, height);
    await page.open(addressOf(PAGE, "#example=step4"));
    await page.select("theme", theme);
    await page.tab("schedules");
    same(`outcomes fit: ${name}`, await page.ask("document.documentElement.scrollWidth <= innerWidth"), true);
    const seen = `[...document.querySelectorAll("#outcomes li")].every(card => card.scrollWidth <= card.clientWidth && card.clientHeight > 100)`;
    same(`they can be read: ${name}`, await page.ask(seen), true);
    await page.ask(`document.getElementById("shown").scrollIntoView()`);
    await page.browser.shot(`outcomes.${name}`);
  }
  await page.browser.size(1400, 900);
}

// The same page from a server.
async function fromServer(page) {
  const server = http.createServer((_, answer) => answer.setHeader("Content-Type", "text/html; charset=utf-8").end(fs.readFileSync(PAGE)));
  await new Promise(done => server.listen(0, "127.0.0.1", done));
  await page.open(`http://127.0.0.1:${server.address().port}/rbl.html`);
  same("from a server", await page.told("outcome"), "After 60 turns: buyer and shop are done.");
  same("its picture", await page.drawn(60), true);
  await page.browser.open("about:blank");
  server.closeAllConnections();
  server.close();
}

// How long it takes; other work on the machine makes it slower, so it is told, and judged with much room.
async function speed(page) {
  const source = `addEventListener("message", () => { window.drawnAt = window.drawnAt || performance.now(); })`;
  const { identifier } = await page.browser.send("Page.addScriptToEvaluateOnNewDocument", { source });
  const openings = [];
  for (let k = 0; k < 5; k++) {
    await page.open(addressOf(PAGE));
    await page.until("drawnAt > 0");
    openings.push(Math.round(await page.ask("drawnAt")));
  }
  await page.browser.send("Page.removeScriptToEvaluateOnNewDocument", { identifier });
  await page.browser.send("HeapProfiler.collectGarbage");   // what is in use, not what the pages before have left
  const heap = (await page.ask("performance.memory.usedJSHeapSize")) / 1e6;
  await page.type({ program: fs.readFileSync(path.join(__dirname, "../bench/channel.rbl"), "utf8"), schedule: "all 5000\n" });
  await page.drawn(10000);
  const redraws = [];
  for (let k = 1; k <= 12; k++) {
    redraws.push(Math.round(await page.ask(`new Promise(done => {
      const from = performance.now(), editor = ${Driven.editor("schedule")};
      addEventListener("message", () => done(performance.now() - from), { once: true });
      editor.replaceRange("all ${5000 - k}", { line: 0, ch: 0 }, { line: 0, ch: 8 }, "+input");
    })`)));
    await page.settled();
  }
  console.log(`the first picture after ${openings.join(", ")} ms; 10,000 turns typed anew: ${redraws.join(", ")} ms; ${heap.toFixed(1)} MB of heap`);
  same("the first picture is quick", Math.min(...openings) < 4000, true);
  same("10,000 turns are quick", Math.min(...redraws) < 2000, true);
  same("memory at the start", heap < 20, true);
}

async function main() {
  const browser = await Chromium.begin(process.env.CHROMIUM || "chromium"), page = new Driven(browser);
  await browser.size(1400, 900);
  await inTurn(page, [trials, pictures, schedules].flatMap(Object.values));
  await inTurn(page, [nothingGoesOut, oldBrowsers, chosenFiles, keyboard, keysOfSchedules, looks, looksOfOutcomes, fromServer, speed]);
  same("no errors of scripts", browser.errors.filter(error => !/example\.invalid|EvalError/.test(error)).join("; "), "");
  await browser.stop();
  cases.end();
}

main();
