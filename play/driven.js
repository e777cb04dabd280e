/* The playground as its tests use it, in whatever browser: it is asked in JavaScript alone. */
"use strict";
const wait = milliseconds => new Promise(done => setTimeout(done, milliseconds));
const PATIENCE = 60000;

class Driven {
  constructor(browser) { this.browser = browser; }
  ask(expression) { return this.browser.ask(expression); }
  // Waits until something holds; false where it does not come to hold.
  async until(expression, patience = PATIENCE) {
    for (const end = Date.now() + patience; Date.now() < end; await wait(30)) if (await this.ask(expression) === true) return true;
    return false;
  }
  // Opens an address as a page of its own; what the browser has kept is forgotten first, if it is asked for.
  async open(address, { isKept = false } = {}) {
    await this.browser.open("about:blank");
    await this.browser.open(address);
    await this.until("document.documentElement.dataset.ready !== undefined");
    if (isKept) return;
    await this.ask("localStorage.clear()");
    await this.browser.open("about:blank");
    await this.browser.open(address);
    await this.until("document.documentElement.dataset.ready !== undefined");
  }
  settled() { return this.until(`document.getElementById("panels").getAttribute("aria-busy") === "false"`); }
  // Types texts in place of those that are there, all at once; `type` waits for their run.
  put(texts) {
    const put = `(editor, text) => editor.replaceRange(text, { line: 0, ch: 0 }, { line: editor.lineCount(), ch: 0 }, "+input")`;
    const edits = Object.entries(texts).map(([name, text]) => `(${put})(${Driven.editor(name)}, ${JSON.stringify(text)})`);
    return this.ask(`void [${edits.join(", ")}]`);
  }
  async type(texts) {
    await this.put(texts);
    await this.settled();
  }
  static editor(name) { return `document.querySelector("#${name} .CodeMirror").CodeMirror`; }
  text(name) { return this.ask(`${Driven.editor(name)}.getValue()`); }
  click(id) { return this.ask(`document.getElementById("${id}").click()`); }
  told(id) { return this.ask(`document.getElementById("${id}").textContent`); }
  isHidden(id) { return this.ask(`document.getElementById("${id}").hidden`); }
  select(id, value) {
    return this.ask(`Object.assign(document.getElementById("${id}"), { value: ${JSON.stringify(value)} }).dispatchEvent(new Event("change"))`);
  }
  async choose(name) {
    await this.select("lesson", name);
    await this.settled();
  }
  // What a tab shows.
  async tab(id) {
    await this.click(`tab-${id}`);
    await this.settled();
    return this.ask(`document.querySelector("#panel-${id} pre")?.textContent`);
  }
  // Asks the picture's frame, whose document is `d`.
  frame(expression) { return this.ask(`(d => (${expression}))(document.getElementById("frame").contentDocument)`); }
  // Waits until the picture shows a run of so many turns.
  drawn(turns) {
    return this.until(`document.getElementById("frame").contentDocument.getElementById("of")?.textContent.replace(",", "") === "of ${turns}"`);
  }
  // The text of the file that a click hands out, and its name.
  file(id) {
    return this.ask(`new Promise(done => {
      const made = URL.createObjectURL, link = HTMLAnchorElement.prototype.click;
      let blob = null;
      URL.createObjectURL = given => { blob = given; return made.call(URL, given); };
      HTMLAnchorElement.prototype.click = function () {
        URL.createObjectURL = made;
        HTMLAnchorElement.prototype.click = link;
        blob.text().then(text => done([this.download, text]));
      };
      document.getElementById("${id}").click();
    })`);
  }
}

// One trial after another, with what each took.
async function inTurn(page, trials) {
  for (const trial of trials) {
    const from = Date.now();
    await trial(page);
    console.log(`${trial.name}: ${((Date.now() - from) / 1000).toFixed(1)} s`);
  }
}

module.exports = { Driven, inTurn, wait };
