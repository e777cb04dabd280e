/* Labels never overlap: each asks for its place, and when all have asked, the most telling ones get theirs first. */
const RANKS = ["parting", "end", "conversation", "alternate", "printed", "value", "line", "rejected"];
const LABEL_ROW = 14;
const measuring = { pen: null, widths: new Map() };

// How wide a text is in a font.
function widthOf(text, font) {
  const key = font + "|" + text;
  let width = measuring.widths.get(key);
  if (width === undefined) {
    measuring.pen = measuring.pen || document.createElement("canvas").getContext("2d");
    measuring.pen.font = font;
    if (measuring.widths.size > 20000) measuring.widths.clear();
    measuring.widths.set(key, width = measuring.pen.measureText(text).width);
  }
  return width;
}

const FONTS = { bold: '650 10.5px system-ui, "Segoe UI", Arial, sans-serif', plain: '10.5px system-ui, "Segoe UI", Arial, sans-serif',
  mono: "10.5px ui-monospace, Consolas, monospace" };

// Whether two boxes overlap, or nearly touch side by side.
const overlap = (a, b) => a.x < b.x + b.w + 3 && b.x - 3 < a.x + a.w && a.y < b.y + b.h && b.y < a.y + a.h;

class Labels {
  constructor() {
    this.asked = [];
    this.marks = [];
    this.rows = new Map();
  }
  /* Asks for a label: its rank, the left end of its line (or its middle), the texts of which the first that has room is taken, the names of its
     style, and how wide it may be at most. In a file a text that is too wide, or reaches over the edge, may end so far to the left of its place as
     `turned` says, where it hides no mark. */
  ask(rank, x, y, texts, name, { most = Infinity, font = FONTS.bold, isMiddle = false, turned = 0 } = {}) {
    this.asked.push({ rank: RANKS.indexOf(rank), x, y, texts, name, most, font, isMiddle, turned });
  }
  // Notes a mark, which no label that was turned may hide.
  mark(x, y, w, h) { this.marks.push({ x, y, w, h }); }
  // Takes a place for what is no label.
  keep(x, y, w, h) { this.take({ x, y, w, h }); }
  // What was asked for, as far as it has room between two sides, as the text of an SVG.
  markup(scene, left, right) {
    const shapes = [];
    this.asked.sort((a, b) => a.rank - b.rank);
    for (const one of this.asked) {
      for (const text of one.texts) {
        const box = this.boxOf(one, text, scene.file, left, right);
        if (!box) continue;
        this.take(box);
        const name = scene.isPale(box.x, one.y) ? `${one.name} pale` : one.name;
        shapes.push(`<text class="${name}" x="${box.x.toFixed(1)}" y="${one.y.toFixed(1)}">${escaped(text)}</text>`);
        break;
      }
    }
    return shapes.join("");
  }
  // The box of a text that was asked for, or nothing where it has no room.
  boxOf({ x, y, most, font, isMiddle, turned }, text, isFile, left, right) {
    const w = widthOf(text, font), at = isMiddle ? x - w / 2 : x, box = { x: at, y: y - 9, w, h: 11 }, other = { ...box, x: at - turned - w };
    const isTurned = w > most || at + w > right, place = isTurned ? other : box;
    const mayTurn = isFile && turned !== 0 && x - turned < right && !this.marks.some(mark => overlap(mark, other));
    if (isTurned && !mayTurn) return undefined;
    return place.x >= left && this.isFree(place) ? place : undefined;
  }
  isFree(box) { return !this.rowsOf(box).some(row => (this.rows.get(row) || []).some(other => overlap(other, box))); }
  take(box) {
    for (const row of this.rowsOf(box)) {
      if (!this.rows.has(row)) this.rows.set(row, []);
      this.rows.get(row).push(box);
    }
  }
  rowsOf(box) {
    const rows = [];
    for (let row = Math.floor(box.y / LABEL_ROW); row * LABEL_ROW < box.y + box.h; row++) rows.push(row);
    return rows;
  }
}
