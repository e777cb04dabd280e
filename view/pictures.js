#!/usr/bin/env node
/* Makes the pictures of docs/pictures anew, or tells whether they are what it would make: of the steps of the walk, of the classics, and
   of a run that the lesson on all schedules shows.

     node view/pictures.js [--check]

   RBLVIEW may name the program that writes the traces. */
"use strict";
const child = require("child_process"), fs = require("fs"), path = require("path");
const { picture } = require("./svg.js"), cases = require("./cases.js");

const ROOT = path.dirname(__dirname), PICTURES = path.join(ROOT, "docs/pictures");
const RBLVIEW = process.env.RBLVIEW || path.join(ROOT, "rblview");
const STEPS = [1, 2, 3, 4, 5, 6, 7];
// The files of a picture whose source and schedule do not have its name.
const OTHERS = { step4_failed: ["step4.rbl", "solutions/step4_failed.schedule"] };

// Each picture stands under the name of its source, those of the classics in a folder of their own.
function pictured() {
  const classics = fs.readdirSync(path.join(ROOT, "examples/classics")).filter(name => name.endsWith(".rbl"));
  return [...STEPS.map(step => `step${step}`), ...Object.keys(OTHERS), ...classics.map(name => `classics/${name.slice(0, -".rbl".length)}`)];
}

function pictureOfExample(name) {
  const files = OTHERS[name] || [".rbl", ".schedule"].map(ending => name + ending);
  const [source, schedule] = files.map(file => path.join(ROOT, "examples", file));
  const { status, stdout, stderr } = child.spawnSync(RBLVIEW, ["trace", source, schedule], { maxBuffer: 1 << 30, encoding: "latin1" });
  if (status !== 0) throw new Error(`${RBLVIEW} trace ends with ${status}: ${stderr}`);
  return picture({ trace: stdout, source: fs.readFileSync(source, "latin1") });
}

// What is wrong with a picture that stands there.
function staleness(name) {
  const file = path.join(PICTURES, `${name}.svg`);
  if (!fs.existsSync(file)) return "it is not there";
  return fs.readFileSync(file, "utf8") === pictureOfExample(name) ? "" : "it is not what `node view/pictures.js` makes";
}

// Pictures of which there is no example any more.
function strays(names) {
  const there = fs.readdirSync(PICTURES, { recursive: true }).map(String).filter(name => name.endsWith(".svg"));
  return there.filter(name => !names.includes(name.slice(0, -".svg".length))).join(", ");
}

const words = process.argv.slice(2), names = pictured();
if (words.length > 1 || (words.length === 1 && words[0] !== "--check")) {
  console.error("usage: node view/pictures.js [--check]");
  process.exitCode = 2;
} else if (words.length) {
  for (const name of names) cases.told(`picture of ${name}`, staleness(name));
  cases.told("there is no other picture", strays(names));
  cases.end();
} else {
  fs.mkdirSync(path.join(PICTURES, "classics"), { recursive: true });
  for (const name of names) fs.writeFileSync(path.join(PICTURES, `${name}.svg`), pictureOfExample(name));
}
