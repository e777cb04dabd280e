/* The whole picture at a turn, as the text of an SVG. */
function drawPicture(scene) {
  drawLanes(scene);
  drawNow(scene);
  const near = [drawConversations, drawBlocks, drawReturns, drawMessages, drawLines, drawMarks], far = [drawFieldsFar, drawDensities];
  for (const part of scene.isFar ? far : near) part(scene);
  for (const part of [drawAsked, drawPast, drawPartings, drawRing, drawEnds, drawTail]) part(scene);
  const labels = scene.labels.markup(scene, scene.file ? scene.window.x : scene.leftEdge + 1, scene.rightEdge);
  return [scene.under, scene.marks, scene.over, scene.veil].map(layer => layer.join("")).join("") + labels;
}

// Places with one digit behind the point; a text holds no `"`, so it stays as it is.
const rounded = shapes => shapes.replace(/ (?:d|x|y|cx|cy|r|width|height)="[^"]*"/g,
  attribute => attribute.replace(/\d+\.\d+/g, number => String(+(+number).toFixed(1))));

// Columns `from` to `to` of a layout, or all from there on where `to` is 0, with the names beside them: their shapes, and how much room they take.
function stripOf(layout, turn, from, to) {
  const { width } = layout, x = from * width, right = to && to < layout.count ? LEFT + 10 + to * width : layout.wide;
  const window = { x: from ? x + LEFT : 0, y: 0, w: right - x - (from ? LEFT : 0), h: layout.high, file: true };
  const scene = new Scene(layout, turn, window), shapes = rounded(drawPicture(scene) + drawAxis(scene));
  const names = drawNames(new Scene(layout, turn, { ...window, x: 0 })), placed = `<g transform="translate(${+(-x).toFixed(1)},0)">${shapes}</g>`;
  return { shapes: `${placed}\n${names}`, wide: Math.ceil(right - x), high: Math.ceil(layout.high) };
}

// A style with the colours of a theme in the places of their names.
const colouredStyle = (style, theme) => style.replace(/var\(--(\w+)\)/g, (_, name) => PALETTES[theme][name]);

// The style of a file: in the light colours, and in the dark ones where the reader's system is dark.
function styleOfFile() {
  const style = PICTURE_STYLE.trim(), hasColour = one => one.includes("var(");
  const colours = style.replace(/\{([^}]*)\}/g, (_, all) => `{${all.split(";").filter(hasColour).join(";")}}`).replace(/[^{}]+\{\}/g, "").trim();
  const both = `${colouredStyle(style, "light")}\n@media (prefers-color-scheme:dark){\n${colouredStyle(colours, "dark")}\n}`;
  return both.replace(/</g, "");
}

// A picture of its own: shapes and how much room they take, with their title and their style.
function svgOf(shapes, wide, high, turn) {
  const title = escaped(summary(turn));
  return `<svg xmlns="http://www.w3.org/2000/svg" width="${wide}" height="${high}" viewBox="0 0 ${wide} ${high}" role="img" aria-label="${title}">
<title>${title}</title>
<style>${styleOfFile()}</style>
<rect class="paper" width="100%" height="100%"/>
${shapes}
</svg>
`;
}

function pictureFile(turn, width, from, to) {
  const { shapes, wide, high } = stripOf(layOut(run, turn, width), turn, from, to);
  return svgOf(shapes, wide, high, turn);
}

function summary(turn) {
  const shown = state.survivors ? ", survivors only" : "", when = turn <= LAST && turn < run.count ? `, after turn ${turn}` : "";
  const { processes, count, returns } = run, back = many(returns.length, "return to a recovery point", "returns to recovery points");
  return `Run of ${TITLE}: ${many(processes.length, "process", "processes")}, ${many(count, "turn")}, ${back}${shown}${when}`;
}
