/* What the tests of the page share: pages of programs, the browser, and cases. Screenshots are left in view/out. */
"use strict";
const child = require("child_process"), fs = require("fs"), path = require("path");
const { Browser } = require("./browser.js"), cases = require("./cases.js");

const ROOT = path.dirname(__dirname), OUT = path.join(__dirname, "out");
const RBL = process.env.RBL || path.join(ROOT, "rbl");
const RBLVIEW = process.env.RBLVIEW || path.join(ROOT, "rblview");
const CHROMIUM = process.env.CHROMIUM || "chromium";

function same(what, page, wanted) {
  cases.told(what, page === wanted ? "" : `page ${JSON.stringify(page)?.slice(0, 500)}, wanted ${JSON.stringify(wanted)?.slice(0, 500)}`);
}
const sure = (what, holds, is) => cases.told(what, holds ? "" : JSON.stringify(is));
const written = (program, ...words) => child.spawnSync(program, words, { maxBuffer: 1 << 30 }).stdout.toString("latin1");
const trimmed = text => text.split("\n").map(line => line.trimEnd()).join("\n").trim();
const wait = milliseconds => new Promise(done => setTimeout(done, milliseconds));

// The page of a source and a schedule.
function pageOf(name, source, schedule) {
  fs.mkdirSync(OUT, { recursive: true });
  const [a, b, page] = [".rbl", ".schedule", ".html"].map(ending => path.join(OUT, name + ending));
  fs.mkdirSync(path.dirname(a), { recursive: true });
  fs.writeFileSync(a, source);
  fs.writeFileSync(b, schedule);
  fs.writeFileSync(page, child.spawnSync(RBLVIEW, ["page", path.join(__dirname, "page.html"), a, b], { maxBuffer: 1 << 30 }).stdout);
  return { page, source: a, schedule: b };
}
const example = name => pageOf(name, ...[".rbl", ".schedule"].map(ending => fs.readFileSync(path.join(ROOT, "examples", name + ending))));

async function testErrors(browser, what) {
  same(`${what} has no errors`, browser.errors.join("; "), "");
  browser.errors.length = 0;
}

// Runs tests in one browser, one after another.
async function inBrowser(tests) {
  const browser = await Browser.start(CHROMIUM);
  for (const test of tests) {
    await test(browser);
    await testErrors(browser, test.name);
  }
  await browser.stop();
  cases.end();
}

module.exports = { ROOT, OUT, RBL, RBLVIEW, same, sure, written, trimmed, wait, pageOf, example, testErrors, inBrowser };
