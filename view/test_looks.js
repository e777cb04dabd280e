#!/usr/bin/env node
/* Tests in Chromium how the page is seen: at four widths, in both themes, with the system's colours, on paper, and by the keyboard alone.

     node view/test_looks.js */
"use strict";
const fs = require("fs"), path = require("path");
const { MARKET } = require("./long_runs.js");
const { ROOT, OUT, same, sure, wait, pageOf, example, inBrowser } = require("./driving.js");

const shot = (browser, name) => browser.picture(path.join(OUT, `${name}.png`));

// Everything that can be used has a name for whoever does not see it, and the keyboard reaches it.
async function testNames(browser) {
  await browser.open(example("step4").page, 1400, 900, "#turn=22");
  await browser.ask("document.getElementById('more').open = true; document.querySelector('[data-line]').click()");
  const { nodes } = await browser.send("Accessibility.getFullAXTree");
  const roles = /^(button|combobox|slider|searchbox|textbox|tab|DisclosureTriangle|image|status|region|group)$/;
  const used = nodes.filter(node => !node.ignored && roles.test(node.role?.value));
  const isFocusable = node => node.properties?.some(p => p.name === "focusable");
  same("names", used.filter(node => !node.name?.value && node.role.value !== "status" && isFocusable(node)).map(node => node.role.value).join(), "");
  same("buttons", used.filter(node => node.role.value === "button").length >= 12, true);
  const says = "document.getElementById('slider').getAttribute('aria-valuetext') === document.getElementById('says').innerText";
  same("the slider says the turn", await browser.ask(says), true);
  const reached = [];
  await browser.ask("document.activeElement.blur()");
  for (let k = 0; k < 70; k++) {
    await browser.key("Tab");
    reached.push(await browser.ask("document.activeElement.id"));
  }
  const controls = ["first", "play", "goto", "slider", "find", "past", "survivors", "fit", "speed", "theme", "save"];
  for (const id of [...controls, "picture", "who", "sourcebox", "printedbox"]) {
    same(`the key Tab reaches ${id}`, reached.includes(id), true);
  }
}

// The contrast of texts to what they lie on, as they are seen.
const CONTRAST = `(() => {
  const numbers = colour => colour.match(/[\\d.]+/g).map(Number), linear = v => (v /= 255) <= 0.04045 ? v / 12.92 : ((v + 0.055) / 1.055) ** 2.4;
  const light = ([r, g, b]) => 0.2126 * linear(r) + 0.7152 * linear(g) + 0.0722 * linear(b), low = [];
  const paperOf = node => {
    for (let e = node; e; e = e.parentElement) { const c = numbers(getComputedStyle(e).backgroundColor); if (c.length < 4 || c[3] > 0.5) return c; }
    return [255, 255, 255];
  };
  for (const node of document.querySelectorAll("body *:not(svg *):not(script):not(style):not(option)")) {
    const own = [...node.childNodes].some(child => child.nodeType === 3 && child.textContent.trim()), box = node.getBoundingClientRect();
    if (!own || box.width < 3 || box.height < 3 || node.closest("[disabled]") || getComputedStyle(node).visibility === "hidden") continue;
    const [a, b] = [light(numbers(getComputedStyle(node).color)), light(paperOf(node))].sort((x, y) => y - x), ratio = (a + 0.05) / (b + 0.05);
    if (ratio < 4.5) low.push(node.className + " " + node.textContent.trim().slice(0, 20) + " " + ratio.toFixed(2));
  }
  return low.slice(0, 5).join("; ");
})()`;

async function testContrast(browser) {
  for (const theme of ["light", "dark"]) {
    for (const turn of [20, 22, 24]) {
      await browser.open(example("step4").page, 1400, 900, `#turn=${turn}&process=buyer&theme=${theme}`);
      await browser.ask("document.getElementById('help').open = true; document.querySelector('[data-variable=price]').click()");
      same(`${theme}: texts stand out in turn ${turn}`, await browser.ask(CONTRAST), "");
    }
  }
}

// What is seen at each width: nothing is wider than the page, and nothing that one needs lies out of sight.
async function testWidths(browser) {
  const files = [["step4", example("step4").page, 22], ["market", pageOf("market", MARKET, "all 600\n").page, 700]];
  for (const [width, height] of [[390, 844], [768, 1024], [1024, 768], [1440, 900]]) {
    for (const [name, page, turn] of files) {
      await browser.open(page, width, height, `#turn=${turn}&theme=light`);
      same(`${name} is no wider than ${width}`, await browser.ask("document.documentElement.scrollWidth <= innerWidth"), true);
      const clipped = "(e => e.scrollHeight > e.clientHeight + 2 || e.scrollWidth > e.clientWidth + 2)(document.getElementById('says'))";
      same(`${name} at ${width}: the sentence is whole`, await browser.ask(clipped), false);
      await shot(browser, `${name}.${width}`);
      if (width > 700) {
        const isLow = "id => document.getElementById(id).getBoundingClientRect().top > innerHeight - 60";
        const hidden = `['of-source', 'of-process', 'of-channels', 'of-printed'].filter(${isLow}).join()`;
        same(`${name} at ${width}: all panels are seen`, await browser.ask(hidden), "");
      }
    }
  }
  await browser.open(files[0][1], 390, 844, "#turn=22");
  const used = "[...document.querySelectorAll('header button, header input:not([type=range]), header summary, [role=tab]')]";
  const low = await browser.ask(`${used}.filter(e => e.offsetParent && e.getBoundingClientRect().height < 44).map(e => e.id).join()`);
  same("controls on a phone are 44 pixels high", low, "");
  await browser.ask("scrollTo(0, 9999)");
  const isSeen = "(b => b.top > 0 && b.bottom <= innerHeight)(document.getElementById('on').getBoundingClientRect())";
  same("the steps stay in sight", await browser.ask(isSeen), true);
  await browser.ask("document.querySelector('[data-tab-of=channels]').click()");
  const highs = "['of-channels', 'of-source'].map(id => document.getElementById(id).offsetHeight > 0).join()";
  same("a tab shows its panel", await browser.ask(highs), "true,false");
}

// Where the system sets the colours, the current statement is marked; on paper there is all that one wants to read.
async function testForcedAndPaper(browser) {
  await browser.send("Emulation.setEmulatedMedia", { features: [{ name: "forced-colors", value: "active" }] });
  await browser.open(example("step4").page, 1400, 900, "#turn=22");
  const papers = await browser.ask("['.place', '.row:not(.here) code', 'body'].map(one => getComputedStyle(document.querySelector(one)).backgroundColor).join('; ')");
  const [marked, ...others] = papers.split("; ");
  same("the statement is marked in forced colours", others.includes(marked), false);
  await shot(browser, "forced");
  await browser.send("Emulation.setEmulatedMedia", { features: [] });
  const pages = [["step4", example("step4").page, "#turn=22"], ["market", pageOf("market", MARKET, "all 600\n").page, "#turn=900"]];
  for (const [name, page, hash] of pages) {
    await browser.open(page, 1050, 740, hash);
    await browser.ask("dispatchEvent(new Event('beforeprint'))");
    await browser.send("Emulation.setEmulatedMedia", { media: "print" });
    const heads = await browser.ask("[...document.querySelectorAll('#paper h2')].map(e => e.innerText).join(', ')");
    same(`${name}: what stands on paper`, heads, "How to read it, Source, Schedule, What rbl run has written");
    const others = "['picture', 'says', 'panels'].filter(id => document.getElementById(id).offsetHeight).join()";
    same(`${name}: only paper is printed`, await browser.ask(others), "");
    sure(`${name}: strips of the picture`, await browser.ask("document.querySelectorAll('#paper .strip svg').length") >= 1);
    const high = await browser.ask("document.documentElement.scrollHeight");
    await browser.send("Emulation.setDeviceMetricsOverride", { width: 1050, height: Math.min(high, 4000), deviceScaleFactor: 1, mobile: false });
    await wait(100);
    await shot(browser, `${name}.paper`);
    await browser.send("Emulation.setEmulatedMedia", { media: "" });
  }
}

// Of each picture in the page: the texts that overlap, that reach out of it, and those that are less than 10 pixels high.
const UNREADABLE = `[...document.querySelectorAll("body > svg")].flatMap(svg => {
  const own = svg.getBoundingClientRect(), texts = [...svg.querySelectorAll("text")].map(e => [e.textContent, e.getBoundingClientRect(), e]);
  const apart = (a, b) => a.right <= b.left + 1 || b.right <= a.left + 1 || a.bottom <= b.top + 3 || b.bottom <= a.top + 3;
  const pairs = texts.flatMap(([a, box], k) => texts.slice(k + 1).filter(([, other]) => !apart(box, other)).map(([b]) => a + " on " + b));
  const out = texts.filter(([, box]) => box.left < own.left || box.right > own.right || box.top < own.top || box.bottom > own.bottom);
  const small = texts.filter(([, , e]) => parseFloat(getComputedStyle(e).fontSize) * (own.width / svg.viewBox.baseVal.width) < 10);
  const wide = own.width > 880 ? ["it is wider than 880 pixels"] : [];
  return [...pairs, ...out.map(([a]) => a + " reaches out"), ...small.map(([a]) => a + " is small"), ...wide].map(why => svg.id + ": " + why);
})`;

// The pictures of the docs, in both colour schemes.
async function testPictures(browser) {
  const folder = path.join(ROOT, "docs/pictures"), page = path.join(OUT, "pictures.html");
  const names = fs.readdirSync(folder, { recursive: true }).map(String).filter(name => name.endsWith(".svg")).sort();
  const pictures = names.map(name => fs.readFileSync(path.join(folder, name), "utf8").replace(/^.*\n<svg/, `<svg id="${name}"`));
  fs.writeFileSync(page, `<!doctype html><html data-ready="yes"><meta charset="utf-8"><body>${pictures.join("\n")}</body></html>`);
  for (const scheme of ["light", "dark"]) {
    await browser.send("Emulation.setEmulatedMedia", { features: [{ name: "prefers-color-scheme", value: scheme }] });
    await browser.open(page, 900, 900);
    const faults = await browser.ask(UNREADABLE);
    for (const name of names) same(`${name}, ${scheme}`, faults.filter(fault => fault.startsWith(`${name}: `)).join("; "), "");
    const paper = await browser.ask("getComputedStyle(document.querySelector('.paper')).fill");
    same(`the paper is ${scheme}`, paper, { light: "rgb(255, 255, 255)", dark: "rgb(18, 22, 27)" }[scheme]);
  }
  await browser.send("Emulation.setEmulatedMedia", { features: [] });
}

inBrowser([testNames, testContrast, testWidths, testForcedAndPaper, testPictures]);
