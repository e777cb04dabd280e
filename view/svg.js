#!/usr/bin/env node
/* Draws the picture of a run from its trace, as the page does, without a browser. It is a script, and nothing of it is proved: `--help`. */
"use strict";
const fs = require("fs"), path = require("path");
const { loaded, ofPicture } = require("./load.js"), { faultOfTrace } = require("./trace_lines.js"), { pen } = require("./letters.js");

const USAGE = "usage: node view/svg.js [--source SOURCE] [--turns FROM-TO] [TRACE] > PICTURE";
const HELP = `${USAGE}

Draws the picture of a run from what \`rblview trace SOURCE SCHEDULE\` writes, as an SVG. Without TRACE, or where it is -, the trace is read from
standard input. It is a script and not proved: the trace is, and what is drawn of it is tested (docs/VIEW.md).

  --source SOURCE   the source of the run: its name stands in the title, and what its statements are in the tooltips
  --turns FROM-TO   only these turns; of more than 2,000 turns a part must be chosen

No picture is wider than 880 pixels: what does not fit stands in strips, one below the other. What is refused is told on standard error by name,
with status 2, and nothing is written:

  unread    a file that can't be read
  no-trace  a text that does not begin with \`trace 1\`
  no-line   a line that is none of a trace, or that names what its head does not have
  no-order  a line of a turn that is not the next one
  cut-off   a trace that ends before its last turn or before its ending
  at-odds   lines that contradict one another
  no-turns  turns that the run does not have
  too-long  more turns than are drawn at a time
`;
const REFUSED = 2, UNWRITTEN = 4;
const ROOM = 880, LEAST = 12, MOST = 24, MOST_TURNS = 2000, BETWEEN = 10;

const drawing = loaded(ofPicture, `{ takeRuns, layOut, stripOf, svgOf, roomOf, roomBehind, LEFT, MARGIN, measuring,
  get run() { return run; }, call(name) { TITLE = name; } }`);
drawing.measuring.pen = pen;

class Refusal extends Error {}
const refuse = (name, why) => { throw new Refusal(`${name}: ${why}`); };

/* How wide a column is, and how many stand in each strip, for so many of them and for what stands behind the last: as few strips as there can be,
   and columns as wide as they can be then. */
function columnsInStrips(count, behind) {
  const free = ROOM - drawing.LEFT - 10;
  for (let strips = 1; ; strips++) {
    for (let each = Math.max(1, Math.ceil(count / strips)); free / each >= LEAST && (strips - 1) * each < Math.max(1, count); each++) {
      const width = Math.min(MOST, free / each);
      if ((strips - 1) * each + Math.floor((free - behind) / width) >= count) return { width, each };
    }
  }
}

// The columns to draw: from one to behind another.
function columnsOf(turns, last) {
  const [from, to] = turns || [1, Math.max(1, last)];
  if (turns && (from < 1 || from > to || to > last)) refuse("no-turns", `the turns that are drawn of this run are 1 to ${last}`);
  if (to - from + 1 > MOST_TURNS) refuse("too-long", `${to - from + 1} turns, and ${MOST_TURNS} at a time: choose some with --turns FROM-TO`);
  return { from: from - 1, to: Math.min(to, last) };
}

// Strips one below the other, each cut off at its sides, with a line between two of them.
function stacked(strips) {
  const wide = Math.max(...strips.map(strip => strip.wide));
  let high = 0;
  const shapes = strips.map((strip, k) => {
    const top = high + (k ? BETWEEN : 0), line = k ? `<path class="between" d="M0 ${top - BETWEEN / 2}H${wide}"/>\n` : "";
    high = top + strip.high;
    return `${line}<svg y="${top}" width="${strip.wide}" height="${strip.high}">\n${strip.shapes}\n</svg>`;
  });
  return { shapes: shapes.join("\n"), wide, high };
}

// The picture of the run that was taken: of some of its turns, or of all.
function pictureOf(turns) {
  const { run, layOut, stripOf, roomOf, roomBehind, MARGIN } = drawing, { from, to } = columnsOf(turns, run.last), isWhole = to === run.last;
  const { width, each } = columnsInStrips(to - from, isWhole ? roomOf(run).tail + MARGIN + roomBehind(run, MOST) : 0);
  const layout = layOut(run, run.end, width), strips = [];
  for (let at = from; at === from || at < to; at += each) {
    const isLast = at + each >= to;
    strips.push(stripOf(layout, run.end, at, isLast && isWhole ? 0 : Math.min(at + each, to)));
  }
  const { shapes, wide, high } = strips.length > 1 ? stacked(strips) : strips[0];
  return `<?xml version="1.0" encoding="UTF-8"?>\n${drawing.svgOf(shapes, wide, high, run.end)}`;
}

// The picture of a trace, with its source or with a name in its place; `turns` are the first and the last one, if some are chosen.
function picture({ trace, source = "", name = "a program", turns = null }) {
  const fault = faultOfTrace(trace);
  if (fault) refuse(fault.name, `line ${fault.line} of the trace`);
  try {
    drawing.takeRuns({ source, schedule: "", trace });
    if (!source) drawing.call(name);
    return pictureOf(turns);
  } catch (error) {
    if (error instanceof Refusal) throw error;
    return refuse("at-odds", `the lines of the trace contradict one another (${error.message})`);
  }
}

function read(file) {
  try {
    return fs.readFileSync(file === "-" ? 0 : file, "latin1");
  } catch (error) {
    return refuse("unread", `${file === "-" ? "standard input" : file}: ${error.code}`);
  }
}

// What the words ask for; nothing where they have another form.
function asked(words) {
  const options = { trace: "-" };
  let left = words;
  for (; /^--/.test(left[0]); left = left.slice(2)) {
    const turns = /^(\d{1,7})-(\d{1,7})$/.exec(left[1]);
    if (left[0] === "--source" && left[1] && !options.source) options.source = left[1];
    else if (left[0] === "--turns" && turns && !options.turns) options.turns = [Number(turns[1]), Number(turns[2])];
    else return null;
  }
  if (left.length > 1 || left[0] === "" || /^-./.test(left[0])) return null;
  return { ...options, trace: left[0] || "-" };
}

function main(words) {
  if (words.join() === "--help") return { out: HELP, err: "", status: 0 };
  const options = asked(words);
  if (options === null) return { out: "", err: `${USAGE}\n`, status: REFUSED };
  const name = options.trace === "-" ? undefined : path.basename(options.trace).replace(/\.\w*$/, "").replace(/[^\w.-]/g, "_");
  try {
    const source = options.source && read(options.source);
    return { out: picture({ trace: read(options.trace), source, name, turns: options.turns }), err: "", status: 0 };
  } catch (error) {
    if (!(error instanceof Refusal)) throw error;
    return { out: "", err: `svg: ${error.message}\n`, status: REFUSED };
  }
}

if (require.main === module) {
  const { out, err, status } = main(process.argv.slice(2));
  process.exitCode = status;
  try {
    fs.writeFileSync(2, err);
    fs.writeFileSync(1, out);
  } catch {
    process.exitCode = UNWRITTEN;
  }
}

module.exports = { picture, Refusal };
