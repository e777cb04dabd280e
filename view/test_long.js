#!/usr/bin/env node
/* Tests the page over long runs in Chromium, with real events of mouse, wheel, fingers and keys: that what lies under the pointer stays there, that
   the window of the overview moves as it is drawn, and that labels never overlap.

     node view/test_long.js */
"use strict";
const path = require("path");
const { MARKET } = require("./long_runs.js"), { crowd } = require("./programs.js");
const { OUT, same, sure, wait, pageOf, inBrowser } = require("./driving.js");

const market = turns => pageOf(`market.${turns}`, MARKET, `all ${turns / 2}\n`).page;
const shot = (browser, name) => browser.picture(path.join(OUT, `${name}.png`));
const boxOf = async (browser, id) => JSON.parse(await browser.ask(`JSON.stringify(document.getElementById("${id}").getBoundingClientRect())`));

// The turns that the picture shows, as the overview tells them, and which of them lies at x.
async function seen(browser) {
  await wait(120);
  const [, from, to] = /turns (\d+) to (\d+)/.exec(await browser.ask("document.getElementById('overview').getAttribute('aria-valuetext')"));
  return { from: +from, to: +to, count: to - from };
}
const underX = ({ from, to }, x, width) => from + (to - from) * (x - 114) / (width - 114);

function mouse(browser, type, x, y, more = {}) {
  const pressed = type === "mouseMoved" || type === "mousePressed" ? 1 : 0;
  return browser.send("Input.dispatchMouseEvent", { type, x, y, button: "left", buttons: pressed, clickCount: 1, ...more });
}
const wheel = (browser, x, y, deltaY) => browser.send("Input.dispatchMouseEvent", { type: "mouseWheel", x, y, deltaX: 0, deltaY });

async function testWheel(browser) {
  await browser.open(market(10000), 1440, 900, "#theme=light&turn=5000");
  const y = (await boxOf(browser, "picture")).y + 80;
  for (const [x, way] of [[500, 120], [900, 120], [900, 120], [300, 120], [1200, -120], [700, 120]]) {
    const before = underX(await seen(browser), x, 1440);
    await wheel(browser, x, y, way);
    const now = await seen(browser), after = underX(now, x, 1440);
    sure(`the wheel by ${way} leaves what lies at ${x}`, Math.abs(before - after) < Math.max(2, now.count * 0.01), [before, after]);
  }
  for (let k = 0; k < 30; k++) await wheel(browser, 800, y, 240);
  const whole = await seen(browser);
  sure("the wheel comes to the whole run", whole.from === 0 && whole.to >= 9990, whole);
  await shot(browser, "long.whole");
}

async function testOverview(browser) {
  await browser.open(market(10000), 1440, 900, "#theme=light&turn=5000");
  const { y } = await boxOf(browser, "overview"), numbers = "f => JSON.stringify([+f.getAttribute('x'), +f.getAttribute('width')])";
  const frame = `(${numbers})(document.querySelector('#overview .frame'))`;
  const drag = async (from, to) => {
    await mouse(browser, "mousePressed", from, y + 40);
    for (const x of [(from + to) / 2, to]) await mouse(browser, "mouseMoved", x, y + 40);
    await mouse(browser, "mouseReleased", to, y + 40);
    return seen(browser);
  };
  let before = await seen(browser), [left, wide] = JSON.parse(await browser.ask(frame));
  let now = await drag(left + wide / 2, left + wide / 2 + 100);
  sure("the window is dragged", Math.abs(now.count - before.count) < 5 && Math.abs(now.from - before.from - 760) < 60, [before, now]);
  [left, wide] = JSON.parse(await browser.ask(frame));
  before = now;
  now = await drag(left - 5, left - 65);
  sure("its left side is stretched", Math.abs(now.to - before.to) < 20 && now.from < before.from - 300, [before, now]);
  now = await drag(300, 340);
  sure("another window is drawn", now.from > 1200 && now.from < 1600 && now.count > 200 && now.count < 420, now);
  await browser.ask("document.getElementById('overview').focus()");
  await browser.key("ArrowRight");
  const moved = await seen(browser);
  sure("a key moves it", moved.from > now.from && Math.abs(moved.count - now.count) < 5, [now, moved]);
  await browser.key("g");
  await browser.send("Input.insertText", { text: "7777" });
  await browser.key("Enter");
  await browser.ask("document.activeElement.blur()");
  same("go to a turn by its number", (await browser.textOf("says")).slice(0, 10), "Turn 7777:");
  now = await seen(browser);
  sure("and it is seen", now.from < 7777 && now.to > 7777, now);
}

async function testFingers(browser) {
  await browser.open(market(10000), 1440, 900, "#theme=light&turn=5000");
  const y = (await boxOf(browser, "picture")).y + 80;
  const touch = (type, xs) => browser.send("Input.dispatchTouchEvent", { type, touchPoints: xs.map((x, id) => ({ x, y, id })) });
  await browser.send("Emulation.setTouchEmulationEnabled", { enabled: true, maxTouchPoints: 2 });
  const before = await seen(browser);
  await touch("touchStart", [600, 700]);
  for (let k = 1; k <= 10; k++) await touch("touchMove", [600 - 10 * k, 700 + 10 * k]);
  await touch("touchEnd", []);
  const now = await seen(browser);
  await browser.send("Emulation.setTouchEmulationEnabled", { enabled: false });
  sure("two fingers make it three times as wide", Math.abs(before.count / now.count - 3) < 0.4, [before, now]);
  sure("about their middle", Math.abs(underX(before, 650, 1440) - underX(now, 650, 1440)) < 6, [before, now]);
}

// At each of many sizes, no label lies over another.
const OVERLAPS = `(async () => {
  let count = 0, hits = [];
  const box = document.getElementById("picture"), how = { clientX: 700, clientY: 300, bubbles: true, cancelable: true, ctrlKey: SHIFTED };
  const act = deltaY => box.dispatchEvent(new WheelEvent("wheel", { deltaY, ...how }));
  for (let k = 0; k < 50; k++) {
    act(k < 18 ? -70 : 55);
    await new Promise(done => requestAnimationFrame(() => requestAnimationFrame(done)));
    const boxes = [...document.querySelectorAll("#drawing #pictures text")].map(e => [e.textContent, e.getBoundingClientRect()]);
    count += boxes.length;
    boxes.forEach(([a, p], i) => boxes.slice(i + 1).forEach(([b, q]) => {
      if (p.left < q.right - 1 && q.left < p.right - 1 && p.top < q.bottom - 3 && q.top < p.bottom - 3) hits.push(a + " | " + b);
    }));
  }
  return JSON.stringify({ count, hits: hits.slice(0, 4) });
})()`;

async function testLabels(browser) {
  for (const [name, page, ctrl] of [["market", market(10000), false], ["crowd", pageOf("crowd", crowd(32), "all 62\n").page, true]]) {
    await browser.open(page, 1440, 900, "#theme=light&turn=1200");
    const { count, hits } = JSON.parse(await browser.ask(OVERLAPS.replace("SHIFTED", ctrl)));
    sure(`${name}: no labels overlap`, count > 200 && hits.length === 0, { count, hits });
  }
}

inBrowser([testWheel, testOverview, testFingers, testLabels]);
