#!/usr/bin/env node
/* Tests the page in Chromium: opens it, steps through runs, compares its texts with what `rbl` writes, and leaves screenshots in view/out.

     node view/test_page.js

   RBL and RBLVIEW may name the two programs, CHROMIUM the browser. */
"use strict";
const fs = require("fs"), path = require("path");
const { HOSTILE } = require("./programs.js"), { picture } = require("./svg.js");
const { ROOT, OUT, RBL, RBLVIEW, same, written, trimmed, pageOf, example, testErrors, inBrowser } = require("./driving.js");

// Every turn of an example by the key, with the sentence of each; then its lines and its survivors.
async function testExample(browser, name) {
  const files = example(name);
  await browser.open(files.page, 1400, 900, "#theme=light&turn=end");
  same(`${name} lines`, trimmed(await browser.textOf("printed")), trimmed(written(RBL, "run", files.source, files.schedule)));
  await browser.key("s");
  const survivors = written(RBL, "survive", files.source, files.schedule);
  same(`${name} survivors`, trimmed(await browser.textOf("printed")), trimmed(survivors) || "nothing yet");
  const marks = await browser.ask("document.querySelectorAll('#drawing .mark[data-turn]').length");
  same(`${name} marks of survivors`, marks, survivors.split("\n").length - 1);
  await browser.picture(path.join(OUT, `${name}.survivors.png`));
  await browser.key("s");
  await browser.key("Home");
  same(`${name} at the opening`, (await browser.textOf("says")).slice(0, 11), "The opening");
  const last = await browser.ask("+document.getElementById('slider').max");
  for (let turn = 1; turn <= last; turn++) {
    await browser.key("ArrowRight");
    const says = await browser.textOf("says");
    if (!says.startsWith("The end")) same(`${name} at ${turn}`, says.split(":")[0], `Turn ${turn}`);
  }
  await browser.picture(path.join(OUT, `${name}.png`));
  await testErrors(browser, name);
}

async function testExamples(browser) {
  const names = fs.readdirSync(path.join(ROOT, "examples")).filter(n => n.endsWith(".rbl")).map(n => n.slice(0, -4));
  for (const name of names) await testExample(browser, name);
}

const VARIABLES = "[...document.querySelectorAll('#process > table tbody tr')].map(row => [...row.cells].map(c => c.innerText).join(' ')).join('; ')";

// What the page says and shows in some turns of the fourth step.
async function testMoments(browser) {
  const { page } = example("step4");
  await browser.open(page, 1400, 900, "#turn=22&theme=light");
  same("the rejection", await browser.textOf("says"), "Turn 22: alternate 1 of the conversation Deal is rejected for all who are inside: the test of shop " +
    "does not hold; buyer goes back to turn 3: its turns 5 to 21 are undone; shop goes back to turn 16: its turns 18 to 22 are undone.");
  same("variables", await browser.ask(VARIABLES), "bid 40 0; day 3 3");
  const alternate = await browser.ask("[...document.querySelectorAll('.alternate')].map(e => e.innerText).join('')");
  same("its alternate in the source", alternate, '{ receive offer bid; print "sells for", bid; }');
  await browser.picture(path.join(OUT, "step4.rejected.png"));
  await browser.open(page, 1400, 900, "#turn=20&process=buyer&theme=dark");
  const back = await browser.ask("document.querySelector('.recoverypoint p:last-child').innerText");
  same("what would go back", back, "would put back: price 40 → 0, rest 60 → 100, 1 message taken back from offer, 1 held line dropped");
  same("held lines", await browser.ask("document.querySelector('#process .lines').innerText"), "13 offers 40");
  same("the channel", await browser.ask("document.querySelector('#channels .cells').innerText.trim()"), "40");
  await browser.picture(path.join(OUT, "step4.dark.png"));
  await browser.key("PageDown");
  same("page down", (await browser.textOf("says")).slice(0, 8), "Turn 22:");
  await browser.key("PageUp");
  same("page up", (await browser.textOf("says")).slice(0, 11), "The opening");
  const place = "(b => [b.x + 3, b.y + b.height / 2])(document.querySelector('#drawing .future').getBoundingClientRect())";
  await browser.click(...JSON.parse(await browser.ask(`JSON.stringify(${place})`)));
  same("a click", (await browser.textOf("says")).slice(0, 7), "Turn 1:");
}

// At the opening it says how to go on, and no tooltip tells what is to come; at the end it tells the end.
async function testOpening(browser) {
  const { page } = example("step4"), isTipHidden = "document.getElementById('tip').hidden";
  await browser.open(page, 1400, 900, "");
  same("the page opens at the opening", /^The opening: .* Press → /.test(await browser.textOf("says")), true);
  await browser.open(page, 1400, 900, "#turn=22");
  const mark = "document.querySelector('#drawing .mark[data-turn=\"22\"]').getBoundingClientRect()";
  const place = `(b => [b.x + b.width / 2, b.y + b.height / 2])(${mark})`;
  const [x, y] = JSON.parse(await browser.ask(`JSON.stringify(${place})`));
  await browser.send("Input.dispatchMouseEvent", { type: "mouseMoved", x, y });
  same("a tooltip tells a turn", await browser.ask(`!${isTipHidden} && document.getElementById('tip').innerText.startsWith('Turn 22:')`), true);
  await browser.key("Home");
  same("a key hides it", await browser.ask(isTipHidden), true);
  await browser.send("Input.dispatchMouseEvent", { type: "mouseMoved", x: x + 1, y });
  same("nothing is told of a turn to come", await browser.ask(isTipHidden), true);
  await browser.key("End");
  same("at the end", await browser.ask("document.querySelector('#process thead th:last-child').innerText"), "at the end");
  const deal = await browser.ask("[...document.querySelectorAll('#channels .box')].pop().querySelector('.note').innerText");
  same("the alternate that passed", deal, "passed in turn 34 with alternate 2 of 2");
}

// Texts that try to break out stay texts.
async function testHostile(browser) {
  const files = pageOf("hostile", HOSTILE.source, HOSTILE.schedule);
  await browser.open(files.page, 1400, 900, "#theme=light&turn=end");
  const intruders = "typeof broken + document.querySelectorAll('script').length + document.querySelectorAll('img').length";
  same("nothing broke out", await browser.ask(intruders), "undefined40");
  same("hostile lines", trimmed(await browser.textOf("printed")), trimmed(written(RBL, "run", files.source, files.schedule)));
  const source = await browser.ask("[...document.querySelectorAll('#sourcetext code')].map(c => c.textContent).join('\\n')");
  same("hostile source", trimmed(source), trimmed(HOSTILE.source));
  const schedule = "document.getElementById('schedule-text').textContent.includes('</script><script>broken = 1</script> @TRACE@')";
  same("hostile schedule", await browser.ask(schedule), true);
  const put = await browser.ask("['source', 'schedule', 'trace'].map(id => document.getElementById(id).textContent).join('')");
  same("what is put in is ASCII", /^[\t\n -~]*$/.test(put), true);
  const last = await browser.ask("+document.getElementById('slider').max");
  for (let turn = last; turn > 0; turn--) await browser.key("ArrowLeft");
  await browser.ask("document.getElementById('inwords').open = true");
  await browser.key("/");
  await browser.send("Input.insertText", { text: "<img src=x>" });
  await browser.key("Enter");
  await browser.ask("dispatchEvent(new Event('beforeprint'))");
  same("nothing broke out of words, of what is looked for, and on paper", await browser.ask(intruders), "undefined40");
  const picture = await saved(browser), parsed = `new DOMParser().parseFromString(${JSON.stringify(picture)}, "image/svg+xml")`;
  same("nothing broke out of the picture", await browser.ask(`${parsed}.querySelectorAll("script, img, parsererror").length`), 0);
  await browser.picture(path.join(OUT, "hostile.png"));
}

// What `save as SVG` saves.
async function saved(browser) {
  return browser.ask(`new Promise(done => {
    const made = URL.createObjectURL;
    URL.createObjectURL = blob => { blob.text().then(done); return made.call(URL, blob); };
    document.getElementById("save").click();
    URL.createObjectURL = made;
  })`);
}

/* What is drawn without a browser is what the page saves, to the last byte of its shapes: of runs so short that both make one strip of columns of the
   same width. Labels lie as the letters of the browser allow. */
async function testPicture(browser) {
  const shapes = picture => picture.replace(/<text.*?<\/text>/g, "");
  for (const name of ["step1", "step2", "step3", "step5", "step6", "deadlock", "recovery"]) {
    const files = example(name), trace = written(RBLVIEW, "trace", files.source, files.schedule);
    await browser.open(files.page, 1400, 900, "#turn=end");
    const alone = picture({ trace, source: fs.readFileSync(files.source, "latin1") });
    same(`${name}: the picture without a browser`, shapes(alone), shapes(await saved(browser)));
  }
}

inBrowser([testExamples, testMoments, testOpening, testHostile, testPicture]);
