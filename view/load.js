/* Loads parts of the page for node. They stand on one another by their order, and none asks for a page before it is called. */
"use strict";
const fs = require("fs"), path = require("path");

const read = name => fs.readFileSync(path.join(__dirname, name), "utf8");
const NAMES = read("order.txt").trim().split("\n");

// What the scripts of these names give: an expression over what they declare.
const loaded = (names, given) => new Function(`"use strict"; ${names.map(read).join("\n")}; return ${given};`)();

// The model, and what finds blocks in a source.
const source = "{ wordsOfSource, blocksOfSource, beginOfStatement, lineOfProcess }";
const ofModel = [...NAMES.filter(name => name.startsWith("model/")), "parts/source.js"];

// All that draws the picture: the scripts up to the one that puts it together.
const ofPicture = NAMES.slice(0, NAMES.indexOf("parts/picture.js") + 1);

module.exports = { loaded, ofPicture, ...loaded(ofModel, `{ Model, Source: ${source} }`) };
