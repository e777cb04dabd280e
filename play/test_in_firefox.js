#!/usr/bin/env node
/* Tests the playground in Firefox: the trials that go in every browser, of a few lessons. FIREFOX may name the browser; RBL, RBLVIEW and
   PLAYGROUND are as in test_playground.js. */
"use strict";
const cases = require("../view/cases.js"), { Firefox } = require("./marionette.js"), { Driven, inTurn } = require("./driven.js");
const trials = require("./trials.js"), schedules = require("./trials_schedules.js");

async function main() {
  const page = new Driven(await Firefox.start(process.env.FIREFOX || "firefox-esr"));
  const { opening, lessons, ...others } = trials, someLessons = () => lessons(page, ["step3", "sorting", "voting"]);
  await inTurn(page, [opening, someLessons, ...Object.values(others), ...Object.values(schedules)]);
  await page.browser.stop();
  cases.end();
}

main();
