/* Drives Firefox without a window, by its own protocol over a socket: enough to open a page, to ask it, and to take its picture. */
"use strict";
const child = require("child_process"), fs = require("fs"), net = require("net"), os = require("os"), path = require("path");
const wait = milliseconds => new Promise(done => setTimeout(done, milliseconds));

const PREFERENCES = [["marionette.port", 0], ["browser.shell.checkDefaultBrowser", false], ["datareporting.policy.dataSubmissionEnabled", false]];

class Firefox {
  static async start(program) {
    const firefox = new Firefox();
    firefox.profile = fs.mkdtempSync(path.join(os.tmpdir(), "rbl-firefox-"));
    fs.writeFileSync(path.join(firefox.profile, "user.js"), PREFERENCES.map(([name, value]) => `user_pref("${name}", ${value});\n`).join(""));
    const words = ["--headless", "--marionette", "--no-remote", "--profile", firefox.profile, "about:blank"];
    firefox.process = child.spawn(program, words, { stdio: "ignore" });
    await firefox.connect();
    await firefox.send("WebDriver:NewSession", { capabilities: { alwaysMatch: { pageLoadStrategy: "eager" } } });
    await firefox.send("WebDriver:SetTimeouts", { script: 120000, pageLoad: 60000 });
    return firefox;
  }
  // Firefox writes the port that it listens on into its profile.
  async connect() {
    const port = path.join(this.profile, "MarionetteActivePort");
    for (let k = 0; k < 600 && !fs.existsSync(port); k++) await wait(100);
    Object.assign(this, { asked: new Map(), next: 1, rest: Buffer.alloc(0), socket: net.connect(+fs.readFileSync(port, "utf8"), "127.0.0.1") });
    await new Promise((done, failed) => { this.greeted = done; this.socket.on("error", failed).on("data", data => this.take(data)); });
  }
  // Each message begins with its length and a colon; the first one greets.
  take(data) {
    this.rest = Buffer.concat([this.rest, data]);
    for (let at = this.rest.indexOf(":"); at >= 0; at = this.rest.indexOf(":")) {
      const end = at + 1 + Number(this.rest.subarray(0, at));
      if (this.rest.length < end) return;
      const message = JSON.parse(this.rest.subarray(at + 1, end));
      this.rest = this.rest.subarray(end);
      if (!Array.isArray(message)) { this.greeted(); continue; }
      const [, number, error, result] = message;
      this.asked.get(number)(error ? { error } : result);
      this.asked.delete(number);
    }
  }
  send(command, params = {}) {
    return new Promise(done => {
      const text = Buffer.from(JSON.stringify([0, this.next, command, params]));
      this.asked.set(this.next++, done);
      this.socket.write(`${text.length}:`);
      this.socket.write(text);
    });
  }
  async ask(expression) {
    const script = `const done = arguments[arguments.length - 1]; (async () => (${expression}))().then(done, fault => done("fault: " + fault));`;
    const told = await this.send("WebDriver:ExecuteAsyncScript", { script, args: [] });
    return told.error ? `error: ${told.error.message}` : told.value;
  }
  open(address) { return this.send("WebDriver:Navigate", { url: address }); }
  async picture(file) { fs.writeFileSync(file, Buffer.from((await this.send("WebDriver:TakeScreenshot", { full: false })).value, "base64")); }
  async stop() {
    await Promise.race([this.send("Marionette:Quit", { flags: ["eForceQuit"] }), wait(3000)]);
    this.socket.destroy();
    this.process.kill();
    fs.rmSync(this.profile, { recursive: true, force: true, maxRetries: 5 });
  }
}

module.exports = { Firefox };
