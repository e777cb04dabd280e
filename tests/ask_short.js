/* Asks the engine's module where memory is wanting: ask_short.js MODULE QUESTIONS

   QUESTIONS is a file of JSON, a list of {name, program, words, texts, mayWrite}. Each is asked of modules whose memory may have so many pages and
   no more, from those that it begins with up to as many as are enough; the answer without a limit is the right one, and where memory is wanting some
   may write its front. Each case is a line, `ok NAME` or `not ok NAME -- WHY`. */
"use strict";
const fs = require("fs");
const Engine = require("../play/engine.js");

const MEMORY_SECTION = 5, NO_MEMORY = 5, MOST_PAGES = 1000;
const SMALL = ["rbl", ["check", "a"], ["program a; process p { } end."], 64];
const [, , place, questions] = process.argv;
const bytes = fs.readFileSync(place);

/** The number that stands at a place, 7 bits a byte, and what stands behind it. */
function number(at) {
  let value = 0, shift = 0;
  for (; bytes[at] > 127; at++, shift += 7) value |= (bytes[at] & 127) << shift;
  return [value | bytes[at] << shift, at + 1];
}

/** Where the section with the memory begins and ends, and how many pages it begins with; it names no most. */
function memorySection() {
  for (let at = 8; at < bytes.length;) {
    const [length, begin] = number(at + 1);
    if (bytes[at] === MEMORY_SECTION) {
      if (bytes[begin] !== 1 || bytes[begin + 1] !== 0) throw new Error("the module's memory is not one without a most");
      return { begin: at, end: begin + length, pages: number(begin + 2)[0] };
    }
    at = begin + length;
  }
  throw new Error("the module has no memory");
}

/** The module, with a memory of at most so many pages. */
function moduleOf({ begin, end, pages }, most) {
  const two = value => [value & 127 | 128, value >> 7];
  const section = Buffer.from([MEMORY_SECTION, 6, 1, 1, ...two(pages), ...two(most)]);
  return new WebAssembly.Module(Buffer.concat([bytes.subarray(0, begin), section, bytes.subarray(end)]));
}

const engineOf = wasm => new Engine(new WebAssembly.Instance(wasm, {}));
const same = (one, other) => one.status === other.status && Buffer.compare(one.out, other.out) === 0;
const isFront = (one, other) => Buffer.compare(one.out, other.out.subarray(0, one.out.length)) === 0;

/** What is wrong with the answer of an engine with a small memory, or nothing; the question notes how often memory was wanting. */
function wrong(question, wasm, small) {
  const { program, words, texts, mayWrite, whole } = question;
  const engine = engineOf(wasm), answer = engine.ask(program, words, texts);
  if (same(answer, whole)) {
    question.isOver = true;
    return question.refused > 9 ? null : `memory was wanting only ${question.refused} times`;
  }
  if (answer.status !== NO_MEMORY || !isFront(answer, whole) || answer.out.length > 0 && !mayWrite) return `status ${answer.status}, ${answer.out.length} bytes`;
  if (answer.reason.length > 0) return `tells ${Buffer.from(answer.reason)}`;
  question.refused++;
  const next = engine.ask(...SMALL);
  return same(next, small) ? null : `the next call gives ${next.status}, and a first one ${small.status}`;
}

const section = memorySection(), all = JSON.parse(fs.readFileSync(questions, "utf8"));
for (const question of all) Object.assign(question, { whole: Engine.loadNow(bytes).ask(question.program, question.words, question.texts), refused: 0 });
for (let most = section.pages; most <= MOST_PAGES && all.some(question => !question.isOver); most++) {
  const wasm = moduleOf(section, most), small = engineOf(wasm).ask(...SMALL);
  for (const question of all.filter(one => !one.isOver)) {
    question.why = wrong(question, wasm, small);
    if (question.why) question.isOver = true;
  }
}
for (const { name, why, isOver } of all) {
  const said = isOver ? why : `${MOST_PAGES} pages are too few`;
  console.log(said ? `not ok ${name} -- ${said}` : `ok ${name}`);
  if (said) process.exitCode = 1;
}
