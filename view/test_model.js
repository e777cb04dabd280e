#!/usr/bin/env node
/* Tests the model of the page against `rbl run` and `rbl survive`.

     node view/test_model.js [FIRST LAST]

   For every example, or for the random programs of these numbers, a trace is read, and at its turns the model is asked what `rbl` would have
   written had the schedule ended there: lines, states, open blocks, variables, channels and survivors. RBL and RBLVIEW name the two programs. */
"use strict";
const child = require("child_process"), fs = require("fs"), os = require("os"), path = require("path");
const { Model, Source } = require("./load.js"), { program } = require("./programs.js"), cases = require("./cases.js");

const ROOT = path.dirname(__dirname), EXAMPLES = path.join(ROOT, "examples");
const RBL = process.env.RBL || path.join(ROOT, "rbl");
const RBLVIEW = process.env.RBLVIEW || path.join(ROOT, "rblview");
const folder = fs.mkdtempSync(path.join(os.tmpdir(), "view-test-"));
const SOURCE = path.join(folder, "source"), SCHEDULE = path.join(folder, "schedule");
const counted = { programs: 0, turns: 0, prefixes: 0, statements: 0, undone: 0, returns: 0, messages: 0, "taken back": 0, sessions: 0, held: 0 };
let differences = [];

function same(what, page, oracle) {
  if (page !== oracle) differences.push(`${what}: page ${JSON.stringify(page).slice(0, 400)}, oracle ${JSON.stringify(oracle).slice(0, 400)}`);
}
const sure = (what, holds) => same(what, Boolean(holds), true);
const written = (program, ...words) => child.spawnSync(program, words, { maxBuffer: 1 << 30 }).stdout.toString("latin1");
const text = lines => lines.map(line => line + "\n").join("");

// The turns of a schedule, as names of processes.
function turnsOf(schedule, names) {
  const turns = [];
  for (const line of schedule.split("\n")) {
    const [name, count] = line.replace(/#.*/, "").trim().split(/\s+/);
    for (let k = 0; k < +(count || 0); k++) turns.push(...(name === "all" ? names : [name]));
  }
  return turns;
}

// What the model says at turn t is what `rbl` writes over the first t turns.
function testPrefix(what, run, turns, t) {
  fs.writeFileSync(SCHEDULE, text(turns.slice(0, t).map(name => `${name} 1`)));
  same(`${what} run at ${t}`, text(Model.printed(run, t).map(l => l.line).concat(Model.endingAt(run, t))), written(RBL, "run", SOURCE, SCHEDULE));
  same(`${what} survive at ${t}`, text(Model.record(run, t)), written(RBL, "survive", SOURCE, SCHEDULE));
  counted.prefixes++;
}

// A wait is one since nothing was there, and whoever took something found it.
function testChannels(what, run) {
  for (const turn of run.turns.slice(1)) {
    const number = run.numberOf.channel.get(turn.what[turn.what.length - 1]);
    if (number === undefined) continue;
    const { sent, taken, seen, free } = run.channels[number].numbers.at(turn.number - 1);
    const at = `${what} channel at ${turn.number}`;
    if (turn.kind === "waits") sure(at, turn.what[1] === "room" ? free === 0 : seen === taken);
    if (turn.message) sure(at, free > 0);
    if (turn.receipt) sure(at, seen > taken && turn.receipt.message.number === taken + 1);
    if (turn.receipt) sure(`${at}: sent before`, turn.receipt.sent < turn.number && sent > taken);
  }
}

// Blocks, conversations, messages and held lines last as long as they should.
function testSpans(what, run) {
  for (const span of run.spans) {
    const last = span.tries[span.tries.length - 1];
    same(`${what} span ${span.id}`, last.how, span.how);
    sure(`${what} tries ${span.id}`, span.tries.slice(0, -1).every(one => one.how === "rejected"));
  }
  for (const session of run.sessions.filter(s => s.how === "accepted")) {
    const { name } = run.conversations[session.conversation], { alternate } = session.tries[session.tries.length - 1];
    sure(`${what} pass of ${name} in ${session.end}`, run.turns[session.end].said.includes(`pass ${name} ${alternate}`));
  }
  for (const receipt of run.receipts) {
    const gone = [receipt.sent, receipt.taken].map(t => run.undoneIn[t]).filter(Boolean);
    same(`${what} receipt ${receipt.id}`, receipt.back, gone.length ? Math.min(...gone) : 0);
  }
  for (const held of run.held) {
    same(`${what} held ${held.id}`, held.how === "dropped", run.undoneIn[held.from] !== undefined);
    if (held.how === "released") sure(`${what} out`, run.outs.some(o => o.turn === held.to && o.process === held.process && o.text === held.text));
  }
}

// The words `ensure` of the source are the blocks of the trace, and each has its alternates there.
function testSource(what, run, source) {
  const blocks = Source.blocksOfSource(source.split("\n"));
  same(`${what} blocks`, blocks.map(b => `${b.ensure.line + 1} ${b.alternates.length - 1}`).join(), run.blocks.map(b => `${b.line} ${b.alternates}`).join());
}

// The place of a turn is that of what it did.
function testPlaces(what, run, source) {
  const lines = source.split("\n"), words = Source.wordsOfSource(lines);
  for (const turn of run.turns.slice(1)) {
    if (!turn.place) continue;
    const { line, column } = turn.place, rest = lines[line - 1].slice(column - 1), begin = Source.beginOfStatement(words, turn.place), at = `${what} place at ${turn.number}`;
    const starts = text => same(`${at}: ${text}`, rest.slice(0, text.length), text);
    if (/^(send|receive|for)$/.test(turn.what[0])) starts(turn.what[turn.what.length - 1]);
    if (/^(enter|start)$/.test(turn.what[0])) starts("ensure");
    if (turn.what[0] === "enter") same(at, line, run.blocks[+turn.what[1]].line);
    if (turn.what[0] === "step" && turn.changes.length) starts(turn.changes[0].variable.name);
    if (turn.line || turn.said.some(said => turn.kind === "took" && said.startsWith(`out ${run.processes[turn.process].name} `) && !rest.startsWith("ensure"))) same(`${at}: printed`, begin && begin.word, "print");
    counted.statements++;
  }
}

// One program is one case, however much of it is compared.
function testProgram(what, source, schedule, every) {
  differences = [];
  testRun(what, source, schedule, every);
  cases.told(what, differences.slice(0, 3).join("; "));
}

function testRun(what, source, schedule, every) {
  fs.writeFileSync(SOURCE, source, "latin1");
  fs.writeFileSync(SCHEDULE, schedule, "latin1");
  const trace = written(RBLVIEW, "trace", SOURCE, SCHEDULE), all = written(RBL, "run", SOURCE, SCHEDULE);
  sure(`${what} has a trace: ${trace.slice(0, 40)}`, trace.startsWith("trace 1\n"));
  const run = Model.readTrace(trace), turns = turnsOf(schedule, run.processes.map(p => p.name));
  same(`${what} run`, text(Model.printed(run, run.count).map(l => l.line).concat(run.ending)), all);
  same(`${what} ending`, text(run.ending), text(Model.endingAt(run, run.count)));
  for (let t = run.count; t >= 0; t -= every) testPrefix(what, run, turns, t);
  testChannels(what, run);
  testSpans(what, run);
  testSource(what, run, source);
  testPlaces(what, run, source);
  count(run);
}

function count(run) {
  counted.programs++;
  counted.turns += run.count;
  counted.undone += run.undoneIn.filter(t => t !== undefined).length;
  counted.returns += run.returns.length;
  counted.messages += run.messages.length;
  counted["taken back"] += run.messages.filter(m => m.back).length;
  counted.sessions += run.sessions.length;
  counted.held += run.held.length;
}

function main([first, last]) {
  const examples = first ? [] : fs.readdirSync(EXAMPLES).filter(n => n.endsWith(".rbl")).map(n => n.slice(0, -4));
  for (const name of examples) {
    const read = ending => fs.readFileSync(path.join(EXAMPLES, name + ending), "latin1");
    testProgram(name, read(".rbl"), read(".schedule"), 1);
  }
  for (let seed = +first; seed <= +last; seed++) {
    const { source, turns } = program(seed);
    testProgram(`program ${seed}`, source, text(turns.map(name => `${name} 1`)), 23);
  }
  fs.rmSync(folder, { recursive: true });
  console.log(Object.entries(counted).map(([what, n]) => `${what} ${n}`).join(", "));
  cases.end();
}

main(process.argv.slice(2));
