#!/usr/bin/env node
/* Tests the colours of the page: that texts and shapes stand out from what they lie on, and that colour-blind people tell the colours apart that
   mean different things. Contrast is that of WCAG 2; what is seen with red-, green- or blue-blindness is computed after Machado and others. */
"use strict";
const fs = require("fs"), path = require("path");
const cases = require("./cases.js");
const PALETTES = new Function(fs.readFileSync(path.join(__dirname, "parts/palette.js"), "utf8") + "; return PALETTES;")();

const BLINDNESS = {
  none: [[1, 0, 0], [0, 1, 0], [0, 0, 1]],
  red: [[0.152286, 1.052583, -0.204868], [0.114503, 0.786281, 0.099216], [-0.003882, -0.048116, 1.051998]],
  green: [[0.367322, 0.860646, -0.227968], [0.280085, 0.672501, 0.047413], [-0.01182, 0.04294, 0.968881]],
  blue: [[1.255528, -0.076749, -0.178779], [-0.078411, 0.930809, 0.147602], [0.004733, 0.691367, 0.3039]],
};
// What a text and what a shape may lie on, and what has to be told apart.
const PAPER = ["back", "panel", "field0", "field1", "field2", "gone0"];
const TEXTS = ["ink", "soft", "bad", "good", "point"];
const SHAPES = ["took", "message", "grey", "amber"];
// What the words of a program may be coloured with in the playground's editor, and lie on.
const WORDS = ["ink", "soft", "took", "point", "amber", "good", "bad"];
const EDITOR = ["back", "field0", "field1"];
const APART = [["took", "bad"], ["took", "good"], ["bad", "good"], ["point", "bad"], ["point", "good"], ["point", "took"], ["took", "dead"], ["bad", "dead"], ["good", "dead"],
  ["field0", "gone0"], ["field0", "field1"], ["gone0", "back"], ["field0", "back"]];

const linear = value => value <= 0.04045 ? value / 12.92 : ((value + 0.055) / 1.055) ** 2.4;
const channels = colour => [1, 3, 5].map(at => linear(parseInt(colour.slice(at, at + 2), 16) / 255));
const lightness = colour => channels(colour).reduce((sum, value, k) => sum + value * [0.2126, 0.7152, 0.0722][k], 0);
const contrast = (a, b) => { const [high, low] = [lightness(a), lightness(b)].sort((x, y) => y - x); return (high + 0.05) / (low + 0.05); };

// A colour as it is seen, in the space Lab.
function seen(colour, blindness) {
  const rgb = channels(colour), blind = BLINDNESS[blindness].map(row => Math.max(0, Math.min(1, row.reduce((sum, factor, k) => sum + factor * rgb[k], 0))));
  const xyz = [[0.4124, 0.3576, 0.1805], [0.2126, 0.7152, 0.0722], [0.0193, 0.1192, 0.9505]].map((row, k) => row.reduce((sum, factor, n) => sum + factor * blind[n], 0) / [0.9505, 1, 1.089][k]);
  const [x, y, z] = xyz.map(value => value > 0.008856 ? Math.cbrt(value) : 7.787 * value + 16 / 116);
  return [116 * y - 16, 500 * (x - y), 200 * (y - z)];
}
const distance = (a, b, blindness) => { const [one, other] = [seen(a, blindness), seen(b, blindness)]; return Math.hypot(...one.map((value, k) => value - other[k])); };

const atLeast = (what, value, least) => cases.told(what, value >= least ? "" : `${value.toFixed(1)}, and not ${least}`);

for (const [theme, palette] of Object.entries(PALETTES)) {
  for (const paper of PAPER) {
    for (const text of TEXTS) atLeast(`${theme}: ${text} on ${paper}`, contrast(palette[text], palette[paper]), 4.5);
    for (const shape of SHAPES) atLeast(`${theme}: ${shape} on ${paper}`, contrast(palette[shape], palette[paper]), 3);
  }
  for (const paper of EDITOR) for (const word of WORDS) atLeast(`${theme}: ${word} on ${paper} in the editor`, contrast(palette[word], palette[paper]), 4.5);
  for (const [one, other] of APART) {
    const least = /field|gone/.test(one) ? 4 : 15;
    for (const blindness of Object.keys(BLINDNESS)) atLeast(`${theme}: ${one} and ${other}, blindness ${blindness}`, distance(palette[one], palette[other], blindness), least);
  }
}
cases.end();
