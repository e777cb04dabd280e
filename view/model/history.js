/* Lists that are sorted by turns, and values that change with them. Turns are numbers; turn 0 is the opening, and "at t" means after turn t. */

// How many of a sorted list are at most `turn`.
function countUpTo(turns, turn) {
  let low = 0, high = turns.length;
  while (low < high) {
    const middle = (low + high) >> 1;
    if (turns[middle] <= turn) low = middle + 1; else high = middle;
  }
  return low;
}

// The last of a sorted list up to `turn`, and the first behind it; 0 where there is none.
const lastUpTo = (turns, turn) => turns[countUpTo(turns, turn) - 1] || 0;
const firstBehind = (turns, turn) => turns[countUpTo(turns, turn)] || 0;

// A value that changes with turns.
class History {
  constructor(first) {
    this.turns = [0];
    this.values = [first];
  }
  set(turn, value) {
    const last = this.turns.length - 1;
    if (this.turns[last] === turn) { this.values[last] = value; return; }
    this.turns.push(turn);
    this.values.push(value);
  }
  at(turn) { return this.values[countUpTo(this.turns, turn) - 1]; }
  last() { return this.values[this.values.length - 1]; }
}

// Things that begin and end in turns. Those that touch a stretch of turns are found without looking at all: of each chunk the latest end is known.
const CHUNK = 64;

class Spans {
  constructor(things, begin, end) {
    this.things = things.slice().sort((a, b) => begin(a) - begin(b));
    this.begins = this.things.map(begin);
    this.ends = this.things.map(end);
    this.latest = [];
    this.ends.forEach((turn, k) => {
      const chunk = Math.floor(k / CHUNK);
      this.latest[chunk] = Math.max(this.latest[chunk] || 0, turn);
    });
  }
  between(from, to) {
    const found = [], count = countUpTo(this.begins, to);
    for (let chunk = 0; chunk * CHUNK < count; chunk++) {
      if (this.latest[chunk] < from) continue;
      const end = Math.min(count, (chunk + 1) * CHUNK);
      for (let k = chunk * CHUNK; k < end; k++) if (this.ends[k] >= from) found.push(this.things[k]);
    }
    return found;
  }
}
