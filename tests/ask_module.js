/* Asks the engine's module one question after another: ask_module.js MODULE QUESTIONS

   QUESTIONS is a file of JSON, a list of {program, words, texts, largest}, the texts as paths. Each answer is a line of JSON: the status, a hash
   of the output, and the reason, with the processor time in milliseconds and the memory that the engine holds; or a trap. */
"use strict";
const crypto = require("crypto"), fs = require("fs");
const Engine = require("../play/engine.js");

const processor = () => {
  const { user, system } = process.cpuUsage();
  return (user + system) / 1000;
};

const module_ = new WebAssembly.Module(fs.readFileSync(process.argv[2]));
const fresh = () => new Engine(new WebAssembly.Instance(module_, {}));
let engine = fresh();

function answer({ program, words, texts, largest }) {
  const begun = processor();
  try {
    const { status, out, reason } = engine.ask(program, words, texts.map(path => fs.readFileSync(path)), largest);
    const hash = crypto.createHash("sha256").update(out).digest("hex");
    return { status, length: out.length, hash, reason: Buffer.from(reason).toString("base64"), took: processor() - begun, memory: engine.memory };
  } catch (error) {
    engine = fresh();
    return { trap: String(error) };
  }
}

for (const question of JSON.parse(fs.readFileSync(process.argv[3], "utf8"))) console.log(JSON.stringify(answer(question)));
