/* How wide a column is: by the wheel, by two fingers, by keys and by the overview's window. What lies under the pointer stays there. */
const columnsOf = layout => Math.max(1, layout.columns ? layout.count : Math.max(...RUNS.map(one => one.last)));

// The width with which the whole run lies in the window, and the greatest that there is.
function leastWidth() {
  const count = state.survivors ? survivorsAt(run, Math.min(state.turn, LAST)).length : Math.max(...RUNS.map(one => one.last));
  const behind = state.survivors ? 0 : Math.max(...RUNS.map(one => roomOf(one).tail)), free = view.w / view.scale - LEFT - MARGIN - 24 - behind;
  const close = free / Math.max(1, count), wide = (free - Math.max(...RUNS.map(one => roomOf(one).texts)) + 12) / Math.max(1, count);
  const least = wide > 11 ? wide : Math.min(11, close);
  return Math.min(WIDEST, Math.max(state.survivors ? TINY : 0.001, least));
}
const mostWidth = () => Math.max(leastWidth(), Math.min(WIDEST, MOST_WIDE / Math.max(1, ...RUNS.map(one => one.last))));

function widthNow() {
  const least = leastWidth();
  if (state.width === "whole") return least;
  if (state.width) return Math.max(least, Math.min(mostWidth(), state.width));
  return Math.max(Math.min(READABLE, mostWidth()), Math.min(30, least));
}

// The turns that the picture shows, as numbers that lie between turns too.
function windowOfPicture() {
  const { layout, scale } = view, { width } = layout, first = (view.x / scale - 10) / width, last = ((view.x + view.w) / scale - LEFT - 10) / width;
  const turn = column => {
    const at = Math.max(0, Math.min(layout.count, column));
    return layout.columns ? layout.columns[Math.min(layout.count - 1, Math.floor(at))] || 0 : at;
  };
  return { from: turn(first), to: Math.max(turn(first), turn(last)) };
}

// Shows the turns from one to another.
function showWindow(from, to) {
  const free = view.w / view.scale - LEFT, count = Math.max(1, Math.min(LAST, to) - Math.max(0, from));
  state.width = Math.max(leastWidth(), Math.min(mostWidth(), free / count));
  const middle = (Math.max(0, from) + Math.min(LAST, to)) / 2;
  view.x = Math.max(0, (middle * state.width + 10 - free / 2) * view.scale);
  redraw();
}

// Makes columns wider by a factor; what lies at `x` of the window stays where it is.
function zoomAt(factor, x) {
  const before = widthNow(), width = Math.max(leastWidth(), Math.min(mostWidth(), before * factor)), within = x / view.scale - LEFT - 10;
  if (width === before) return;
  const column = (view.x / view.scale + within) / before;
  state.width = width <= leastWidth() * 1.0001 ? "whole" : width;
  view.x = Math.max(0, (column * width - within) * view.scale);
  redraw();
}

// By keys and buttons, about the chosen turn if it is seen, and else about the middle.
function zoom(factor) {
  const x = view.layout.x(Math.min(state.turn, LAST)) * view.scale - view.x;
  zoomAt(factor, x > LEFT && x < view.w ? x : (LEFT + view.w) / 2);
}

// The whole run, or as it can be read.
function zoomWhole() {
  state.width = state.width === "whole" && leastWidth() < READABLE ? 0 : "whole";
  show();
}

// Draws anew with another width or another place, and lets the browser scroll there.
function redraw() {
  lay();
  settle();
  draw();
}

function listenToZooming() {
  const box = element("picture");
  let factor = 1, place = 0, asked = 0;
  const zoomSoon = (by, x) => {
    factor *= by;
    place = x;
    asked = asked || requestAnimationFrame(() => { const all = factor; asked = 0; factor = 1; zoomAt(all, place); });
  };
  box.addEventListener("wheel", event => {
    const isHigh = view.high * view.scale > view.h + 4;
    if (event.shiftKey || Math.abs(event.deltaX) > Math.abs(event.deltaY) || (isHigh && !event.ctrlKey)) return;
    event.preventDefault();
    const pixels = event.deltaY * [1, 16, 400][event.deltaMode];
    zoomSoon(Math.exp(-Math.max(-240, Math.min(240, pixels)) * (event.ctrlKey ? 0.01 : 0.0025)), event.clientX - box.getBoundingClientRect().left);
  }, { passive: false });
  listenToFingers(box, zoomSoon);
}

// Two fingers. The shape on which a finger began is drawn anew meanwhile, and what happens on it comes to nobody else: so it is listened to itself.
function listenToFingers(box, zoomSoon) {
  const apart = ([a, b]) => Math.max(20, Math.abs(a.clientX - b.clientX));
  box.addEventListener("touchstart", event => {
    if (event.touches.length !== 2) return;
    event.preventDefault();
    let before = apart(event.touches);
    const left = box.getBoundingClientRect().left, ends = new AbortController(), targets = new Set([...event.touches].map(touch => touch.target));
    const move = moved => {
      if (moved.touches.length !== 2) return;
      moved.preventDefault();
      const now = apart(moved.touches), middle = (moved.touches[0].clientX + moved.touches[1].clientX) / 2;
      if (now === before) return;
      zoomSoon(now / before, middle - left);
      before = now;
    };
    for (const target of targets) {
      target.addEventListener("touchmove", move, { passive: false, signal: ends.signal });
      for (const end of ["touchend", "touchcancel"]) target.addEventListener(end, () => ends.abort(), { signal: ends.signal });
    }
  }, { passive: false });
}
