/* The trials of all schedules in the playground: the outcomes of a program, a schedule of each, and a search that is stopped. */
"use strict";
const { PAGE, OUT, example, addressOf, native, same, changedPage } = require("./native.js");
const { Driven } = require("./driven.js");
const path = require("path");

// A program with as many worlds as numbers, and one that turns about in four for ever.
const MANY = "program many; process p { var x; while 1 > 0 { x := x + 1; } } end.\n";
const ROUND = "program round; process p { var x; while 1 > 0 { x := 1 - x; } } end.\n";
const GOES_ON = `document.getElementById("explore").textContent === "Stop"`;

const explored = (program, ...number) => native("rblview", ["explore", "program", ...number], { program });
const heads = page => page.ask(`[...document.querySelectorAll("#outcomes button")].map(button => button.textContent).join(", ")`);
const choose = (page, number) => page.ask(`document.querySelectorAll("#outcomes button")[${number - 1}].click()`);
const chosenTab = page => page.ask(`document.querySelector("[role=tab][aria-selected=true]").id`);

// Both outcomes of step 4: the second, which its own schedule does not show, is opened.
async function outcomes(page) {
  await page.open(addressOf(PAGE));
  const { program } = example("step4");
  same("all that explore writes", await page.tab("schedules"), explored(program).out);
  same("the outcomes", await heads(page), "1 ended after 27 turns, 2 ended after 38 turns");
  const says = "2 outcomes. The search is complete: 2,316 worlds, 4,618 turns. It comes to rest, whatever the schedule.";
  same("the search in words", await page.told("searched"), says);
  const lines = await page.ask(`[...document.querySelectorAll("#outcomes pre")].map(text => text.textContent).join("")`);
  same("lines of the outcomes", lines, explored(program).out.split("\n").slice(2).filter(line => !line.startsWith("outcome ")).join("\n"));
  const own = await page.ask(`[...document.querySelectorAll("#outcomes li:first-child .common")].map(line => line.textContent).join("")`);
  same("lines that both have", own, "shop.day = 3\noffer left 0\n");
  await page.browser.picture(path.join(OUT, `${page.browser.constructor.name}.outcomes.png`));
  await page.ask(`[0, 1].forEach(at => document.querySelectorAll("#outcomes button")[at].click())`);
  same("its run is drawn", await page.drawn(38), true);
  same("its schedule", await page.text("schedule"), explored(program, "2").out);
  same("how its run ends", await page.told("outcome"), "After 38 turns: buyer and shop have failed.");
  same("the picture is shown", await chosenTab(page), "tab-picture");
  await page.tab("schedules");
  same("it is marked", await page.ask(`document.querySelector("#outcomes [aria-current] button").textContent`), "2 ended after 38 turns");
  await page.ask("dispatchEvent(new Event('beforeprint'))");
  same("outcomes on paper", (await page.told("paper")).endsWith(explored(program).out), true);
  await page.ask(`document.querySelector("#panel-schedules > button").id = "saveoutcomes"`);
  same("outcomes as a file", (await page.file("saveoutcomes")).join("|"), `step4.explore|${explored(program).out}`);
  await page.ask(`${Driven.editor("schedule")}.undo()`);
  await page.settled();
  same("the schedule before can be had again", await page.text("schedule"), example("step4").schedule);
  same("no outcome is marked", await page.ask(`document.querySelector("#outcomes [aria-current]")`), null);
}

// A program that is stuck at once, and one that has no outcome.
async function stuckAtOnce(page) {
  await page.choose("deadlock");
  await page.tab("schedules");
  same("stuck at once", await heads(page), "1 stuck after 0 turns");
  await choose(page, 1);
  same("its run has no turns", await page.drawn(0), true);
  same("its empty schedule", await page.text("schedule"), "");
  await page.tab("schedules");
  await page.type({ program: ROUND });
  const says = "0 outcomes. The search is complete: 4 worlds, 4 turns. Whether it always comes to rest is not known.";
  same("no outcome", await page.told("searched"), says);
  same("none is shown", await heads(page), "");
}

// A search that would take minutes: the page and its runs go on, and it can be stopped.
async function stoppedSearch(page) {
  await page.put({ program: MANY, schedule: "p 3\n" });
  same("a search can be stopped", await page.until(GOES_ON), true);
  same("older outcomes cannot be chosen", await page.ask(`document.getElementById("outcomes").inert`), true);
  await page.click("tab-printed");
  const isTold = `document.querySelector("#panel-printed pre").textContent.startsWith("end 3\\n")`;
  same("a run goes on beside it", await page.until(isTold, 5000), true);
  await page.click("tab-schedules");
  same("the search still goes on", await page.ask(GOES_ON), true);
  await page.click("explore");
  await page.settled();
  same("the search is stopped", await page.ask(`document.querySelector("#panel-schedules pre").textContent`), "Stopped.");
  same("nothing is searched", await page.ask(GOES_ON), false);
  await page.click("explore");
  same("it is begun anew", await page.ask(GOES_ON), true);
  await page.ask(`document.dispatchEvent(new KeyboardEvent("keydown", { key: "Escape", bubbles: true }))`);
  await page.settled();
  same("the key Escape stops it", await page.ask(GOES_ON), false);
  await page.click("explore");
  await page.type(example("step5"));
  same("a changed program does not wait for it", await heads(page), "1 ended after 15 turns, 2 ended after 69 turns");
}

// What is refused tells its reason; a schedule that is refused does not matter.
async function refusedSource(page) {
  const program = example("step4").program.replace("price := 60", "prise := 60");
  await page.type({ program });
  await page.until(`!document.getElementById("fault").hidden`);
  const told = explored(program);
  same("what a refused program writes", await page.tab("schedules"), told.out);
  same("its reason", await page.told("faulttext"), told.reason);
  same("it has no outcomes", await heads(page), "");
  await page.type({ program: example("step4").program, schedule: "nobody 3\n" });
  same("a refused schedule", await heads(page), "1 ended after 27 turns, 2 ended after 38 turns");
}

// A search that stopped at its bounds, one without memory, and a breakdown.
async function searchesAmiss(page) {
  const calls = "const told = engine.ask(program, words, texts);";
  const opened = async (name, answer) => {
    const instead = `const told = words[0] === "explore" ? ${answer} : engine.ask(program, words, texts);`;
    await page.open(addressOf(changedPage(name, [calls, instead])));
    return page.tab("schedules");
  };
  const of = (status, out) => `{ status: ${status}, out: new TextEncoder().encode(${JSON.stringify(out)}), reason: new Uint8Array(0) }`;
  await opened("bounded", of(0, "states 16777216 turns 20000000 stopped\nnot known\noutcome 1 stuck after 1\np waits for room c\n"));
  const says = "1 outcome. The search was stopped at 16,777,216 worlds, 20,000,000 turns: outcomes may be missing. " +
    "Whether it always comes to rest is not known.";
  same("a search that reached its bounds", await page.told("searched"), says);
  const many = Array.from({ length: 501 }, (_, at) => `outcome ${at + 1} ended after ${at}\np done\np.x = ${at}\n`);
  await opened("crowded", of(0, `states 600 turns 600 complete\nends always\n${many.join("")}`));
  same("the last of many outcomes", (await heads(page)).endsWith(", 500 ended after 499 turns"), true);
  const more = await page.ask(`document.querySelector("#outcomes li:last-child").textContent`);
  same("what is left out of many outcomes", more, "1 outcome more in the file that Save makes");
  same("want of memory for a search", await opened("bare", of(5, "")), "There is not enough memory for this search.");
  const trap = `(() => { throw new WebAssembly.RuntimeError("unreachable"); })()`;
  same("a search that breaks down", await opened("broken", trap), "The engine broke down (RuntimeError: unreachable); another was started.");
  same("and a run goes on", await page.tab("stuck"), "ended\n");
  await page.open(addressOf(PAGE));
}

module.exports = { outcomes, stuckAtOnce, stoppedSearch, refusedSource, searchesAmiss };
