#!/usr/bin/env node
/* Tests in Chromium what the page answers: of variables, lines, messages, rejections, causes, rings, and what is looked for; and how it is seen on
   narrow screens, with the system's colours, on paper, and by the keyboard.

     node view/test_asking.js */
"use strict";
const path = require("path");
const { MARKET, table } = require("./long_runs.js");
const { OUT, same, sure, wait, pageOf, example, inBrowser } = require("./driving.js");

const shot = (browser, name) => browser.picture(path.join(OUT, `${name}.png`));
const textsOf = (browser, selector) => browser.ask(`[...document.querySelectorAll(${JSON.stringify(selector)})]
  .map(e => (e.innerText ?? e.textContent).replace(/\\s+/g, " ").trim()).join("; ")`);
const press = (browser, selector) => browser.ask(`void document.querySelector(${JSON.stringify(selector)}).click()`);
const asked = browser => browser.textOf("asked").then(text => text.replace(/\s+/g, " ").trim());
const turnNow = browser => browser.ask("+document.getElementById('goto').value");

// A variable's history, with what was undone struck out, and the turn that changed it last.
async function testVariable(browser) {
  await browser.open(example("step4").page, 1400, 900, "#turn=30&process=buyer&theme=light");
  await press(browser, "[data-variable=price]");
  same("a variable is asked for", await asked(browser), "price of buyer 3 changes, 1 undone ‹ 25 › ×");
  same("its history", await textsOf(browser, ".history li"), "0 0 the opening; 7 40 undone in 22; 22 0 put back; 25 60");
  same("what is struck out", await textsOf(browser, ".history .undone b"), "40");
  await press(browser, ".history p button");
  same("the last turn that changed it", await turnNow(browser), 25);
  await browser.key("p");
  same("the change before", await turnNow(browser), 22);
  await shot(browser, "asked.variable");
  await browser.key("Escape");
  same("the question is done with", await browser.ask("document.getElementById('asked').hidden"), true);
}

async function testArray(browser) {
  await browser.open(pageOf("shelves", MARKET, "all 60\n").page, 1400, 900, "#turn=end&process=stall");
  await press(browser, "[data-variable=shelf]");
  await press(browser, ".elements [data-index='1']");
  sure("an element of an array", (await asked(browser)).startsWith("shelf[1] of stall "), await asked(browser));
}

// The turns of a line, and a message's send and receive.
async function testLinesAndMessages(browser) {
  await browser.open(example("step4").page, 1400, 900, "#turn=22&theme=light");
  await press(browser, "[data-line='8']");
  same("a line is asked for", await asked(browser), "Line 8 4 turns, 4 undone ‹ 13 › ×");
  await browser.key("p");
  await browser.key("p");
  same("the turn before that carried it out", await turnNow(browser), 11);
  await press(browser, "#channels [data-message]");
  same("a message is asked for", await asked(browser), "40 on offer sent in turn 11; received in turn 20, undone in 22; taken back in 22 ‹ 20 › ×");
  await browser.key("n");
  same("its receive", await turnNow(browser), 20);
}

// What a rejection put back, word by word.
async function testRejection(browser) {
  await browser.open(example("step4").page, 1400, 900, "#turn=22&theme=light");
  const boxes = await textsOf(browser, ".wentback");
  same("what was put back", boxes, "Turn 22 put buyer back to turn 3 variable before put back to price 40 0 rest 60 100 " +
    "1 message taken back from offer the held line “offers 40” dropped undone: 5 7 9 11 13 15 17 19 21; " +
    "Turn 22 put shop back to turn 16 variable before put back to bid 40 0 1 message given back to offer undone: 18 20 22");
  await press(browser, ".undoneturns [data-go='11']");
  same("an undone turn", await turnNow(browser), 11);
}

// Looking for outputs, causes, names and conditions; playing stops where one holds.
async function testFinding(browser) {
  await browser.open(example("step4").page, 1400, 900, "#theme=light");
  const find = async text => {
    await browser.key("Escape");
    await browser.key("/");
    await browser.send("Input.insertText", { text });
    await browser.key("Enter");
    return [await turnNow(browser), (await asked(browser)).split(" ‹")[0]].join(": ");
  };
  same("a condition", await find("price > 40"), "25: “price > 40” 1 turn");
  await browser.key("Home");
  same("a condition on one process", await find("shop.bid = 40"), "20: “shop.bid = 40” 1 turn, 1 undone");
  await browser.key("Home");
  same("a cause", await find("does not hold"), "22: “does not hold” 1 turn, 1 undone");
  await browser.key("Home");
  same("an output", await find("sells for"), "32: “sells for” 2 turns");
  same("nothing", await find("no such thing"), "32: “no such thing” found in no turn");
  await browser.key("Home");
  await find("price > 40");
  await browser.key("Home");
  await browser.ask("document.getElementById('speed').value = 140");
  await browser.key(" ");
  for (let k = 0; k < 100 && await browser.ask("document.getElementById('play').getAttribute('aria-label')") === "stop"; k++) await wait(100);
  same("playing stops where it holds", await turnNow(browser), 25);
}

// The causal past: what could have reached the turn.
async function testPast(browser) {
  await browser.open(example("step4").page, 1400, 900, "#turn=11&theme=light");
  await browser.key("c");
  same("a veil lies over what has no share", await browser.ask("document.querySelectorAll('#drawing .veil').length"), 1);
  const [, buyer, shop] = /^M([\d.]+) [^Z]*ZM([\d.]+) /.exec(await browser.ask("document.querySelector('#drawing .veil').getAttribute('d')"));
  sure("the send of buyer rests on nothing of shop", +buyer > 300 && +shop < 120, [buyer, shop]);
  await browser.open(example("step4").page, 1400, 900, "#turn=20&past&theme=light");
  const veil = await browser.ask("document.querySelector('#drawing .veil').getAttribute('d')");
  sure("the receive of shop rests on the send", +/^M([\d.]+) /.exec(veil)[1] > 300, veil);
  await shot(browser, "past");
}

// A ring of waits: in the lanes, in the picture, and in words.
async function testRing(browser) {
  await browser.open(pageOf("ring", table(false), "all 20\n").page, 1400, 900, "#turn=end&theme=light");
  await browser.key("ArrowLeft");
  same("lanes say what they wait for", (await textsOf(browser, "#names text.sub")).split("; ").slice(0, 6).join(" "),
    "waits for message oil waits for message salt waits for message bread");
  same("a ring is drawn", await browser.ask("document.querySelectorAll('#drawing .ringed .waiter').length"), 3);
  const says = await browser.textOf("says");
  same("a ring is told", says.slice(says.indexOf("A ring")), "A ring since turn 3: ann waits for a message on oil, from cai; " +
    "cai waits for a message on bread, from ben; ben waits for a message on salt, from ann; none of them can ever go on.");
  await shot(browser, "ring");
  await browser.open(pageOf("ring.bounded", table(true), "all 6\n").page, 1400, 900, "#turn=end&theme=light");
  sure("a ring that a rejection can end", (await browser.textOf("says")).endsWith("only a rejection can end it."), await browser.textOf("says"));
  same("it is amber", await browser.ask("document.querySelectorAll('#drawing .ringed .waiter.soon').length"), 3);
  await shot(browser, "ring.bounded");
}

inBrowser([testVariable, testArray, testLinesAndMessages, testRejection, testFinding, testPast, testRing]);
