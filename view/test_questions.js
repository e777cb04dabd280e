#!/usr/bin/env node
/* Tests what the model answers to questions against what the questions mean, said plainly and slowly: over the examples, programs that pass and
   go back again and again or stand still, and random programs.

     node view/test_questions.js [FIRST LAST]

   RBLVIEW names the program that writes traces. */
"use strict";
const child = require("child_process"), fs = require("fs"), os = require("os"), path = require("path");
const { Model } = require("./load.js"), { program, crowd } = require("./programs.js"), { MARKET, table } = require("./long_runs.js");
const cases = require("./cases.js");

const RBLVIEW = process.env.RBLVIEW || path.join(path.dirname(__dirname), "rblview");
const folder = fs.mkdtempSync(path.join(os.tmpdir(), "view-test-"));
let differences = [];

function same(what, is, wanted) {
  const [a, b] = [is, wanted].map(value => JSON.stringify(value));
  if (a !== b) differences.push(`${what}: it is ${a.slice(0, 300)}, wanted ${b.slice(0, 300)}`);
}

const EXAMPLES = path.join(path.dirname(__dirname), "examples");

// What is tried, each with its name, its source and its schedule.
function* programs(first, last) {
  for (const file of fs.readdirSync(EXAMPLES).filter(name => name.endsWith(".rbl"))) {
    const [source, schedule] = [file, file.replace(/rbl$/, "schedule")].map(name => fs.readFileSync(path.join(EXAMPLES, name), "latin1"));
    yield [file.slice(0, -4), source, schedule];
  }
  yield* [["market", MARKET, "all 300\n"], ["crowd", crowd(8), "all 80\n"]];
  yield* [["ring", table(false), "all 9\n"], ["ring with a block", table(true), "all 40\n"]];
  for (let seed = first; seed <= last; seed++) yield [String(seed), program(seed).source, program(seed).turns.map(name => `${name} 1\n`).join("")];
}

function traceOf(source, schedule) {
  const [a, b] = ["source", "schedule"].map(name => path.join(folder, name));
  fs.writeFileSync(a, source, "latin1");
  fs.writeFileSync(b, schedule, "latin1");
  return child.spawnSync(RBLVIEW, ["trace", a, b], { maxBuffer: 1 << 30 }).stdout.toString("latin1");
}

// What each turn rests on at once: the turn before of its process, the turns of a message, and those of a conversation.
function causesOf(run) {
  const causes = run.turns.map(() => new Set()), turnsOf = p => run.processes[p].turns;
  const next = (p, u) => turnsOf(p).find(v => v > u), before = (p, u) => turnsOf(p).filter(v => v <= u).pop();
  const rests = (v, u) => { if (v && u && u !== v) causes[v].add(u); };
  for (const { turns } of run.processes) turns.forEach((u, k) => rests(u, turns[k - 1]));
  for (const { sent, taken, message, channel } of run.receipts) {
    rests(taken, sent);
    for (let u = sent; u < taken; u++) if (run.channels[channel].numbers.at(u).seen >= message.number) { rests(taken, u); break; }
  }
  for (const { tries, entries } of run.sessions) {
    for (const { to, how } of tries.filter(one => one.to)) {
      for (const { process, turn } of entries) {
        rests(turn > to ? turn : next(process, to), to);
        if (how === "accepted") rests(to, before(process, to));
      }
    }
  }
  return causes;
}

function testPast(what, run) {
  const causes = causesOf(run);
  for (let t = 1; t <= run.lastBusy; t += 3) {
    const reached = new Set([t]), open = [t];
    while (open.length) for (const u of causes[open.pop()]) if (!reached.has(u)) { reached.add(u); open.push(u); }
    const past = run.processes.map(({ turns }) => turns.filter(u => reached.has(u)).pop() || 0);
    same(`${what} past of ${t}`, Model.pastOf(run, t), past);
  }
}

// How much there is in stretches, and what lies between two turns.
function testStretches(what, run) {
  const t = Math.floor(run.count / 2), size = 5, many = Math.ceil(run.count / size);
  const stretch = turns => {
    const counts = new Array(many).fill(0);
    for (const u of turns) if (u > 0 && u <= t) counts[Math.floor((u - 1) / size)]++;
    return counts;
  };
  for (const { number, turns } of run.processes) {
    const waits = turns.filter(u => run.turns[u].kind === "waits"), busy = turns.filter(u => !/^(idle|waits)$/.test(run.turns[u].kind));
    const isGone = u => Model.isUndone(run, u, t);
    const wanted = {
      stood: stretch(busy.filter(u => !isGone(u))), waits: stretch(waits), undone: stretch(busy.filter(isGone)),
      returns: stretch(run.returns.filter(back => back.process === number).map(back => back.turn)),
    };
    same(`${what} shares of ${number}`, Model.sharesOf(run, number, 0, size, many, t), wanted);
  }
  const ids = list => list.map(one => one.id).sort((a, b) => a - b), open = turn => turn || Infinity;
  same(`${what} blocks`, ids(Model.spansOf(run).blocks.between(t - 9, t)), ids(run.spans.filter(s => s.entered <= t && open(s.end) >= t - 9)));
  same(`${what} held`, ids(Model.spansOf(run).held.between(t - 9, t)), ids(run.held.filter(h => h.from <= t && open(h.to) >= t - 9)));
}

// Messages of a channel, and who waits.
function testWaits(what, run) {
  for (let t = 0; t <= run.lastBusy; t += 5) {
    for (const channel of run.channels) {
      const open = channel.messages.filter(({ sent, back }) => sent <= t && !(back && back <= t));
      same(`${what} ${channel.name} at ${t}`, Model.openAt(channel, t).map(m => m.id), open.map(m => m.id));
      same(`${what} ${channel.name} behind 1 at ${t}`, Model.openAt(channel, t, 1).map(m => m.id), open.slice(1).map(m => m.id));
    }
    const waits = Model.waitsAt(run, t), ring = Model.ringOf(waits);
    waits.forEach((wait, p) => {
      const gone = run.processes[p].turns.filter(u => u <= t).pop();
      if (gone && Model.isUndone(run, gone, t)) same(`${what} ${p} waits no more at ${t}`, wait, null);
      if (!wait) return;
      const last = run.processes[p].turns.filter(u => u <= t).pop();
      same(`${what} ${p} waits at ${t}`, [run.turns[last].kind, wait.name], ["waits", run.turns[last].what[2]]);
    });
    ring.forEach((p, k) => same(`${what} ring at ${t}`, waits[p].of.includes(ring[(k + 1) % ring.length]), true));
    same(`${what} no ring at ${t}`, ring.length > 0, hasRing(waits));
  }
}

// Whether somebody comes back to himself by following who waits for whom.
function hasRing(waits) {
  return waits.some((_, p) => {
    const seen = new Set(), open = [p];
    while (open.length) {
      const wait = waits[open.pop()];
      for (const q of wait ? wait.of : []) { if (q === p) return true; if (!seen.has(q)) { seen.add(q); open.push(q); } }
    }
    return false;
  });
}

// Lines of the source, conditions, and what was put back.
function testFinding(what, run) {
  const places = run.turns.filter(turn => turn.place && !/^(waits|idle)$/.test(turn.kind));
  for (const line of new Set(places.map(turn => turn.place.line))) {
    same(`${what} line ${line}`, Model.turnsOfLine(run, line), places.filter(turn => turn.place.line === line).map(turn => turn.number));
  }
  for (const process of run.processes) {
    for (const { name, values } of process.variables.filter(v => v.size === null)) {
      const holds = u => +values[0].at(u) > 2 && +values[0].at(u - 1) <= 2, wanted = run.turns.map(t => t.number).filter(u => u > 0 && holds(u));
      same(`${what} ${name} > 2`, Model.turnsFound(run, `${process.name}.${name} > 2`, {}), wanted);
    }
  }
  same(`${what} reject`, Model.turnsFound(run, "reject", {}), run.turns.filter(t => t.said.some(line => line.includes("reject"))).map(t => t.number));
  for (const back of run.returns) {
    const { words } = Model.putBackBetween(run, run.processes[back.process], back.turn - 1, back.turn);
    const changed = run.turns[back.turn].changes.filter(change => change.process === back.process);
    same(`${what} put back in ${back.turn}`, words.map(word => word.is), changed.map(change => change.now));
  }
  for (let k = 0; k < run.tellingTurns.length; k += 3) {
    const t = run.tellingTurns[k], all = Model.printed(run, t);
    same(`${what} lines at ${t}`, Model.countPrinted(run, t), all.length);
    if (run.turns[t].said.length === 1) same(`${what} last line at ${t}`, Model.printed(run, t, 1), all.slice(-1));
  }
}

function main([first = 1, last = 60]) {
  for (const [name, source, schedule] of programs(+first, +last)) {
    differences = [];
    const run = Model.readTrace(traceOf(source, schedule)), what = `questions to ${name}`;
    for (const test of [testPast, testStretches, testWaits, testFinding]) test(what, run);
    same(`${what}: a run and itself`, Model.partingsOf(run, run), []);
    cases.told(what, differences.slice(0, 3).join("; "));
  }
  fs.rmSync(folder, { recursive: true });
  cases.end();
}

main(process.argv.slice(2));
