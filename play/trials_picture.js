/* The trials of the picture in the playground: two runs side by side, and questions that the editor asks. */
"use strict";
const { PAGE, OUT, example, addressOf, same } = require("./native.js");
const { Driven } = require("./driven.js");
const path = require("path");

// A run that is kept is drawn beside the next one, and where they part is marked and told.
async function comparing(page) {
  await page.open(addressOf(PAGE));
  await page.drawn(60);
  const press = id => page.frame(`void d.getElementById("${id}").click()`), says = () => page.frame(`d.getElementById("says").textContent`);
  await press("first");
  await press("keep");
  same("a run is kept", (await says()).includes("This run is kept: change the program or the schedule"), true);
  await page.type({ schedule: "all 31\n" });
  await page.drawn(62);
  const drawn = () => page.frame(`d.querySelectorAll("#pictures > g").length`);
  same("two runs are drawn", await drawn(), 2);
  await press("last");
  same("what they do is the same", (await says()).endsWith("The two runs do the same, step by step.") || await says(), true);
  await page.type({ program: example("step4").program.replace("bid > 50", "bid > 30"), schedule: "all 30\n" });
  await press("last");
  const told = " The two runs part first in shop, at its step 11: in turn 22 of this run, in turn 22 of the kept one.";
  same("where they part is told", (await says()).endsWith(told) || await says(), true);
  await press("parting");
  same("the first difference", await page.frame(`+d.getElementById("goto").value`), 22);
  same("it is marked in both", await page.frame(`d.querySelectorAll("#pictures rect.parting.first").length`), 2);
  await page.browser.picture(path.join(OUT, `${page.browser.constructor.name}.two.png`));
  await press("keep");
  same("the kept run is given up", await drawn(), 1);
}

// A click on the number of a line asks for its turns.
async function lines(page) {
  await page.choose("step4");
  await page.drawn(60);
  await page.ask(`CodeMirror.signal(${Driven.editor("program")}, "gutterClick", ${Driven.editor("program")}, 7)`);
  same("the turns of a line", await page.until(`document.getElementById("frame").contentDocument.getElementById("asked").textContent.startsWith("Line 8 ")`), true);
}

module.exports = { comparing, lines };
