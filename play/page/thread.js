/* The engine in a thread of its own, so that the page stays fluent and a long run can be stopped. Questions are answered one after another. */
class Thread {
  #address;
  #packed;
  #module = null;
  #worker = null;
  #asked = [];
  #tell;

  // `tell` is told what the module says of itself, once it is compiled.
  constructor(script, packed, tell) {
    this.#tell = tell;
    this.#address = URL.createObjectURL(new Blob([script], { type: "text/javascript" }));
    this.#packed = packed;
  }

  get isBusy() { return this.#asked.length > 0; }

  // The thread begins to unpack and to compile the module; a later one takes what was compiled.
  begin() {
    if (this.#worker) return;
    this.#worker = new Worker(this.#address);
    this.#worker.onmessage = ({ data }) => { if (data.module) this.#compiled(data); else this.#answered(data); };
    this.#worker.onmessageerror = () => this.#answered({ fault: "the browser lost the answer" });
    this.#worker.onerror = event => { event.preventDefault(); this.#answered({ fault: event.message || "the browser lets no thread start here" }); };
    this.#worker.postMessage(this.#module ? { module: this.#module } : { packed: this.#packed });
  }

  /* What a program answers: `{ status, out, reason }`; or `{ fault }` in words where the engine broke down, or `{ isStopped }`. */
  ask(program, words, texts = []) {
    this.begin();
    return new Promise(done => {
      this.#asked.push(done);
      this.#worker.postMessage({ program, words, texts });
    });
  }

  #compiled({ module, made }) {
    this.#module = module;
    this.#tell(made);
  }

  #answered(answer) {
    const done = this.#asked.shift();
    if (answer.fault) this.stop();
    if (done) done(answer);
  }

  // Ends the thread with all that was asked; the next question begins another.
  stop() {
    if (this.#worker) this.#worker.terminate();
    this.#worker = null;
    for (const done of this.#asked.splice(0)) done({ isStopped: true });
  }
}
