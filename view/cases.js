/* Tells the cases of a test, a line each: `ok NAME`, or `not ok NAME -- WHY`. */
"use strict";
let wrong = 0;

// One case, and what is wrong with it: nothing, where it is as it should be.
function told(name, why) {
  if (why) wrong++;
  console.log(why ? `not ok ${name} -- ${why}` : `ok ${name}`);
}

// The end of a test: its exit status is 1 where a case was wrong.
function end() {
  process.exitCode = wrong ? 1 : 0;
}

module.exports = { told, end };
