/* Where things lie: a lane for each process, a column for each turn. */
const AXIS = 26, MARGIN = 14, MOST_ROWS = 8, MOST_RAILS = 6, DENSE = 8;
// A column narrower than TINY has no room for a mark; no picture is wider than MOST_WIDE.
const TINY = 3, WIDEST = 48, READABLE = 6.5, MOST_WIDE = 15e6;
// How much room the names have at the left.
let LEFT = 104;

// One rail below the lane for each recovery point that was gone back to; the short ones lie above.
function layRails({ returns, processes }) {
  const rails = new Map();
  for (const back of returns) {
    const key = `${back.process}:${back.to}`;
    if (!rails.has(key)) rails.set(key, { process: back.process, from: back.to, to: back.turn, returns: [] });
    const rail = rails.get(key);
    rail.to = Math.max(rail.to, back.turn);
    rail.returns.push(back);
  }
  const rows = processes.map(() => []);
  for (const rail of [...rails.values()].sort((a, b) => (a.to - a.from) - (b.to - b.from) || a.from - b.from)) putRail(rows[rail.process], rail);
  return rows.map(list => list.length);
}

// A rail goes into the first row in which nothing lies in its way: each row keeps its rails in order.
function putRail(rows, rail) {
  let row = rows.findIndex(taken => {
    const k = Model.countUpTo(taken.begins, rail.from);
    return (k === 0 || taken.ends[k - 1] <= rail.from) && (k === taken.begins.length || taken.begins[k] >= rail.to);
  });
  if (row < 0) row = Math.min(rows.length, MOST_RAILS - 1);
  const taken = rows[row] = rows[row] || { begins: [], ends: [] }, at = Model.countUpTo(taken.begins, rail.from);
  taken.begins.splice(at, 0, rail.from);
  taken.ends.splice(at, 0, rail.to);
  for (const back of rail.returns) back.row = row;
}

// What lanes need of a whole run: their rails, room for messages and for lines, and how much the texts behind the last turns need.
function roomOf(run) {
  if (run.room !== undefined) return run.room;
  const late = turn => turn >= run.last - 3, sends = new Set(run.channels.filter(c => c.to > c.from).map(c => c.from));
  const prints = new Set([...run.held, ...run.outs].map(one => one.process));
  const outs = run.outs.filter(o => late(o.turn)).map(o => 16 + o.text.length * 6.6);
  const texts = [...outs, ...run.processes.filter(p => late(p.failedIn)).map(() => 90)];
  const ring = run.last > 0 && Model.standstillAt(run, run.last) ? RING.wide + 14 : 0, behind = Math.max(ring, Math.min(190, Math.max(46, ...texts)));
  return run.room = { rails: layRails(run), sends, prints, texts: behind, tail: run.end > run.last ? 74 : 0 };
}

// Whether two processes have to do with each other: a conversation or a channel joins them.
const areJoined = (run, p, q) => p === q || run.conversations.some(c => c.members.includes(p) && c.members.includes(q)) ||
  run.channels.some(c => (c.from === p && c.to === q) || (c.from === q && c.to === p));

// Of many lanes those that have nothing to do with a chosen process are folded.
const isFolded = (run, p) => run.processes.length > DENSE && !state.follow && !areJoined(run, p, state.process);

// A lane of which little is drawn.
const narrowLane = (top, bottom) => ({ top, row: 0, marks: top + 6, lines: top + 6, rails: top + 6, bottom, rows: 0, folded: true });

// Of many lanes each is narrow where there is no room for marks, so that all are seen.
function layLanes(run, dense, isFar) {
  const { rails, prints, sends } = roomOf(run);
  let y = AXIS + (RUNS.length > 1 ? 18 : 6);
  return run.processes.map((process, p) => {
    const top = y;
    if (isFolded(run, p) || (dense && isFar)) {
      y = top + (isFar ? 16 : 15);
      return narrowLane(top, top + (isFar ? 14 : 12));
    }
    const rows = Math.min(process.depth, MOST_ROWS), row = dense ? 12 : 15;
    const marks = top + (dense ? 1 : 6) + rows * row + (dense ? 9 : 11);
    const lines = marks + (dense ? 10 : 16), below = lines + (prints.has(p) ? (dense ? 11 : 13) : sends.has(p) && !dense ? 9 : -3);
    const count = state.survivors ? 0 : rails[p];
    const bottom = Math.max(below + count * 6 + (count ? (dense ? 1 : 5) : 2) + rows * 2, marks + (dense ? 8 : 28));
    y = bottom + (dense ? 7 : 16);
    return { top, row, marks, lines, rails: below, bottom, rows, folded: false };
  });
}

const roomBehind = (run, width) => width > 11 ? roomOf(run).texts : 12;

// The survivors at t; the last ones are kept, since each picture asks for them.
function survivorsAt(run, t) {
  if (!run.kept || run.kept.t !== t) run.kept = { t, turns: Model.survivors(run, t) };
  return run.kept.turns;
}

// The place of turn u in a list of turns; a half more where it lies between two.
function placeAmong(turns, u) {
  const k = Model.countUpTo(turns, u);
  return turns[k - 1] === u ? k - 1 : k - 0.5;
}

function layOut(run, t, width) {
  const dense = run.processes.length > DENSE, lanes = layLanes(run, dense, width < TINY && !state.survivors);
  const columns = state.survivors ? survivorsAt(run, Math.min(t, run.last)) : null;
  const count = columns ? columns.length : run.last, at = u => columns ? placeAmong(columns, u) : u - 1, right = LEFT + 10 + count * width;
  return {
    run, lanes, dense, width, columns, count, right, top: 0,
    x: u => u <= 0 ? LEFT + 6 : LEFT + 10 + (at(u) + 0.5) * width,
    turnOf: column => columns ? columns[column] : column + 1,
    wide: right + (columns ? 0 : roomOf(run).tail) + MARGIN + roomBehind(run, width),
    high: (lanes.length ? lanes[lanes.length - 1].bottom : AXIS) + (dense && width >= TINY ? 8 : 18),
  };
}

// The turn whose column is at x.
function turnAt(layout, x) {
  const column = Math.floor((x - LEFT - 10) / layout.width), { columns, count, run } = layout;
  if (column < 0) return 0;
  if (columns) return count ? columns[Math.min(column, count - 1)] : 0;
  return column >= count ? run.end : column + 1;
}
