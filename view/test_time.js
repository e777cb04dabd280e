#!/usr/bin/env node
/* Tests how much time the page's thread takes of a processor, in Chromium: to open a run, for a frame of scrolling, and for a step. The clock says
   little on a machine that has other work.

     node view/test_time.js */
"use strict";
const path = require("path");
const { MARKET } = require("./long_runs.js"), { crowd } = require("./programs.js");
const { OUT, sure, wait, pageOf, inBrowser } = require("./driving.js");

// The runs, and the most that each may take, in milliseconds of a processor: a lane for each of 32 processes takes more than two.
const pages = () => [
  ["10,000 turns", pageOf("market.10000", MARKET, "all 5000\n").page, { open: 400, scroll: 8, step: 25 }],
  ["100,000 turns", pageOf("market.100000", MARKET, "all 50000\n").page, { open: 1000, scroll: 8, step: 25 }],
  ["32 processes, 22,400 turns", pageOf("crowd.long", crowd(32), "all 700\n").page, { open: 1000, scroll: 16, step: 60 }],
];
const shot = (browser, name) => browser.picture(path.join(OUT, `${name}.png`));

// What the page's thread takes of a processor.
async function taken(browser) {
  const { metrics } = await browser.send("Performance.getMetrics");
  return 1000 * metrics.find(metric => metric.name === "TaskDuration").value;
}

async function frames(browser, count, act) {
  const before = await taken(browser);
  await browser.ask(`new Promise(done => {
    const box = document.getElementById("picture");
    let k = 0;
    (function frame() { if (k++ >= ${count}) return done(); ${act}; requestAnimationFrame(frame); })();
  })`);
  return (await taken(browser) - before) / count;
}

// A fixed piece of work of the page's kind: texts cut into words, numbers and objects. On a machine that has other work it takes longer, in time
// of a processor too, and so does everything: limits are those of a machine that does it in REFERENCE milliseconds.
const REFERENCE = 25;
// A limit is told, and missed where it takes twice as long: what a busy machine takes longer differs from one piece of work to another.
const MARGIN = 2;
const WORK = `(() => {
  const text = "12345 level shop 1 block 1 alternate 2 used 17 entered 16\\n".repeat(20000), kept = [];
  for (const line of text.split("\\n")) { const words = line.split(" "); kept.push({ turn: +words[0], name: words[2], used: +words[9], words }); }
  return kept.length;
})()`;

async function slownessNow(browser) {
  const times = [];
  await browser.open("/dev/null");
  for (let k = 0; k < 4; k++) {
    const before = await taken(browser);
    await browser.ask(WORK);
    times.push(await taken(browser) - before);
  }
  return MARGIN * Math.max(1, Math.min(...times) / REFERENCE);
}

async function testTime(browser) {
  await browser.send("Performance.enable", { timeDomain: "threadTicks" });
  for (const [name, page, limits] of pages()) {
    const opens = [], steps = [], scrolls = [], slows = [];
    for (let k = 0; k < 3; k++) {
      slows.push(await slownessNow(browser));
      const before = await taken(browser);
      await browser.open(page, 1440, 900, "#theme=light&turn=5000");
      await wait(300);
      opens.push(await taken(browser) - before);
      scrolls.push(await frames(browser, 40, "box.scrollLeft += 60"));
      steps.push(await frames(browser, 40, "document.getElementById('on').click()"));
    }
    const [open, scroll, step, slow] = [opens, scrolls, steps, slows].map(times => Math.min(...times));
    const told = [open.toFixed(0), scroll.toFixed(1), step.toFixed(1), slow.toFixed(2)];
    console.log(`${name}: to open, for a frame, for a step: ${told.slice(0, 3).join(", ")} ms of a processor; limits are taken times ${told[3]}`);
    sure(`${name}: open`, open < limits.open * slow, opens);
    sure(`${name}: scroll`, scroll < limits.scroll * slow, scrolls);
    sure(`${name}: step`, step < limits.step * slow, steps);
    await browser.ask("document.getElementById('fit').click()");
    await shot(browser, `long.${name.replace(/\W+/g, ".")}`);
  }
}

inBrowser([testTime]);
