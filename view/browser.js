/* Drives Chromium without a window, by its own protocol over two pipes. */
"use strict";
const child = require("child_process"), fs = require("fs");

const CODES = { Tab: 9, ArrowLeft: 37, ArrowUp: 38, ArrowRight: 39, ArrowDown: 40, Home: 36, End: 35, PageUp: 33, PageDown: 34, " ": 32 };

class Browser {
  static async start(program) {
    const browser = new this(program);
    const { targetId } = await browser.send("Target.createTarget", { url: "about:blank" });
    browser.session = (await browser.send("Target.attachToTarget", { targetId, flatten: true })).sessionId;
    await browser.send("Page.enable");
    await browser.send("Runtime.enable");
    return browser;
  }
  constructor(program) {
    const words = ["--headless=new", "--no-sandbox", "--disable-gpu", "--hide-scrollbars", "--remote-debugging-pipe", "about:blank"];
    this.process = child.spawn(program, words, { stdio: ["ignore", "ignore", "ignore", "pipe", "pipe"] });
    Object.assign(this, { asked: new Map(), next: 1, rest: "", session: undefined, errors: [] });
    this.process.stdio[4].on("data", data => this.take(data));
  }
  take(data) {
    const answers = (this.rest + data).split("\0");
    this.rest = answers.pop();
    for (const answer of answers.map(text => JSON.parse(text))) {
      if (answer.method) this.hear(answer);
      if (!this.asked.has(answer.id)) continue;
      this.asked.get(answer.id)(answer.result || {});
      this.asked.delete(answer.id);
    }
  }
  // What the browser tells without having been asked.
  hear({ method, params }) { if (method === "Runtime.exceptionThrown") this.errors.push(params.exceptionDetails.exception.description); }
  send(method, params = {}) {
    return new Promise(resolve => {
      this.asked.set(this.next, resolve);
      this.process.stdio[3].write(JSON.stringify({ id: this.next++, method, params, sessionId: this.session }) + "\0");
    });
  }
  async ask(expression) { return (await this.send("Runtime.evaluate", { expression, returnByValue: true, awaitPromise: true })).result?.value; }
  textOf(id) { return this.ask(`document.getElementById(${JSON.stringify(id)}).innerText`); }
  async open(file, width = 1400, height = 900, hash = "") {
    await this.send("Emulation.setDeviceMetricsOverride", { width, height, deviceScaleFactor: 1, mobile: false });
    await this.send("Page.navigate", { url: "about:blank" });
    await this.send("Page.navigate", { url: `file://${file}${hash}` });
    for (let k = 0; k < 100 && await this.ask("document.documentElement.dataset.ready") !== "yes"; k++) await new Promise(r => setTimeout(r, 50));
  }
  async key(key, modifiers = 0) {
    const text = key.length === 1 ? { text: key } : {};
    await this.send("Input.dispatchKeyEvent", { type: "keyDown", key, windowsVirtualKeyCode: CODES[key] || key.toUpperCase().charCodeAt(0), modifiers, ...text });
    await this.send("Input.dispatchKeyEvent", { type: "keyUp", key, modifiers });
  }
  async click(x, y) {
    for (const type of ["mousePressed", "mouseReleased"]) await this.send("Input.dispatchMouseEvent", { type, x, y, button: "left", clickCount: 1 });
  }
  async picture(file) { fs.writeFileSync(file, Buffer.from((await this.send("Page.captureScreenshot", { format: "png" })).data, "base64")); }
  async stop() {
    this.session = undefined;
    await Promise.race([this.send("Browser.close"), new Promise(r => setTimeout(r, 2000))]);
    this.process.kill();
  }
}

module.exports = { Browser };
