/* What is drawn once: a layout at a turn, seen through a window. What is drawn asks it what is seen, and puts its shapes into one of its layers. */
class Scene {
  constructor(layout, turn, window) {
    Object.assign(this, layout);
    this.layout = layout;
    this.turn = turn;
    this.now = Math.min(turn, this.run.last);
    this.window = window;
    this.file = window.file;
    this.radius = Math.max(1.3, Math.min(4.2, layout.width * 0.36));
    this.edge = Math.min(layout.width * 0.5, this.radius + 5);
    this.end = state.survivors ? this.right : this.x(this.now) + layout.width * 0.5;
    this.isFar = layout.width < TINY && !layout.columns;
    this.labels = new Labels();
    Object.assign(this, { under: [], marks: [], over: [], veil: [], isPale: () => false });
    this.seen = this.turnsSeen();
  }
  // The first and the last turn that the window shows, and a few beside them.
  turnsSeen() {
    const { x, w } = this.window, from = Math.floor((x - (this.file ? 0 : 40)) / this.width) - 2, to = Math.ceil((x + w - LEFT) / this.width) + 2;
    const column = at => Math.max(0, Math.min(this.count - 1, at));
    if (this.columns) return { from: this.columns[column(from)] || 0, to: this.columns[column(to)] || 0 };
    return { from: Math.max(0, from), to: Math.min(this.run.last, Math.max(0, to)) };
  }
  // The things of a kind that lie in what is seen.
  near(kind) { return Model.spansOf(this.run)[kind].between(this.seen.from, Math.min(this.seen.to, this.now)); }
  // A turn by which something ended, or 0 where that is not known yet.
  known(turn) { return turn && turn <= this.now ? turn : 0; }
  isGone(turn) { return Model.isUndone(this.run, turn, this.now); }
  // Survivors only shows nothing that was undone.
  isLeftOut(turn) { return state.survivors && this.isGone(turn); }
  sees(from, to) { return to >= this.window.x - 60 && from <= this.window.x + this.window.w + 60; }
  seesLane(p) { return this.lanes[p].bottom + 20 >= this.window.y && this.lanes[p].top - 20 <= this.window.y + this.window.h; }
  seesRows(from, to) { return Math.max(from, to) >= this.window.y - 10 && Math.min(from, to) <= this.window.y + this.window.h + 10; }
  // The left and the right edge of what is seen of the picture, beside the names.
  get leftEdge() { return this.window.x + (this.file ? 0 : LEFT); }
  get rightEdge() { return this.window.x + this.window.w; }
  // A shape that a reader can point at; in a file its words stand beside it.
  thing(key, name, shapes) {
    const title = this.file ? `<title>${escaped(wordsOfThing(key, this.now))}</title>` : "";
    return `<g${name ? ` class="${name}"` : ""}${this.file ? "" : ` data-thing="${key}"`}>${title}${shapes}</g>`;
  }
}
