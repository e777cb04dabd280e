/* Calls the engine's WebAssembly module: the programs `rbl` and `rblview` over texts in memory. A classic script of a page, where it sets
   `Engine`, and a module for `require` in node. */
"use strict";
(() => {
  const FIRST_ROOM = 1 << 20, LARGEST_ROOM = 1 << 30, GROWTH = 16;
  // Exit statuses: the room for the output was too small, and memory was wanting.
  const NO_ROOM = 4, NO_MEMORY = 5;

  const bytesOf = text => typeof text === "string" ? new TextEncoder().encode(text) : text;

  /** The words, each ended by a byte 0. */
  function ended(words) {
    const all = words.map(bytesOf);
    if (all.some(word => word.includes(0))) throw new RangeError("a word has a byte 0");
    const line = new Uint8Array(all.reduce((length, word) => length + word.length + 1, 0));
    let at = 0;
    for (const word of all) {
      line.set(word, at);
      at += word.length + 1;
    }
    return line;
  }

  /**
   * What a program answers: its exit status, what it writes, and what standard error is told.
   * @typedef {{status: number, out: Uint8Array, reason: Uint8Array}} Answer
   */

  /** The engine over an instance of its module, one call at a time. After a call that throws, the instance is to be thrown away. */
  class Engine {
    /** @param {WebAssembly.Instance} instance */
    constructor(instance) {
      this.exports = instance.exports;
    }

    /** The engine of a module's bytes. */
    static async load(bytes) {
      return new Engine((await WebAssembly.instantiate(bytes, {})).instance);
    }

    /** The same at once, which a page may do only in a worker. */
    static loadNow(bytes) {
      return new Engine(new WebAssembly.Instance(new WebAssembly.Module(bytes), {}));
    }

    /** By what the module was proved and made; or that it is not proved. */
    static made(module) {
      return new TextDecoder().decode(WebAssembly.Module.customSections(module, "made")[0]);
    }

    /** How many bytes of memory the engine holds. */
    get memory() {
      return this.exports.memory.buffer.byteLength;
    }

    /**
     * Carries out a command. The texts are the files that the second to fourth word name, as many as there are; others are missing. Where the
     * output needs more room, the command is carried out again with more. Where memory is wanting, the status is 5 and nothing is written.
     * @param {"rbl" | "rblview"} program
     * @param {(string | Uint8Array)[]} words those behind the program's name
     * @param {(string | Uint8Array)[]} texts at most three
     * @param {number} largest the most bytes of output; where there are more, the status is 4
     * @returns {Answer}
     */
    ask(program, words, texts = [], largest = LARGEST_ROOM) {
      const given = [ended(words), ...[0, 1, 2].map(at => bytesOf(at < texts.length ? texts[at] : ""))];
      for (let room = Math.min(FIRST_ROOM, largest); ; room = Math.min(room * GROWTH, largest)) {
        const reasonRoom = Math.max(room, FIRST_ROOM) / GROWTH;
        const answer = this.call(program, given, texts.length, room, reasonRoom);
        if (room === largest || answer.status !== NO_ROOM && answer.reason.length < reasonRoom) return answer;
      }
    }

    /** One call, with so much room for the output and for the reason. */
    call(program, given, count, room, reasonRoom) {
      const taken = [];
      try {
        const places = [...given.map(bytes => bytes.length), room, reasonRoom, 24].map(length => this.take(length, taken));
        if (places.includes(0)) return { status: NO_MEMORY, out: new Uint8Array(0), reason: new Uint8Array(0) };
        given.forEach((bytes, at) => this.view(places[at], bytes.length).set(bytes));
        const [words, first, second, third] = given.map((bytes, at) => [places[at], bytes.length]);
        const [out, reason, end] = places.slice(given.length);
        const numbers = [...words, count, ...first, ...second, ...third, out, room, reason, reasonRoom, end];
        this.exports[`${program}_ask`](...numbers.map(BigInt)); // of 64 bits, though the memory is one of 32
        const [status, written, told] = Array.from(new BigUint64Array(this.exports.memory.buffer, end, 3), Number);
        return { status, out: this.view(out, written).slice(), reason: this.view(reason, told).slice() };
      } finally {
        for (const place of taken) this.exports.give(BigInt(place));
      }
    }

    /** A block of so many bytes, which is noted; its place is 0 where memory is wanting. */
    take(length, taken) {
      const place = Number(this.exports.take(BigInt(length)));
      if (place > 0) taken.push(place);
      return place;
    }

    view(place, length) {
      return new Uint8Array(this.exports.memory.buffer, place, length);
    }
  }

  if (typeof module === "object") module.exports = Engine;
  else globalThis.Engine = Engine;
})();
