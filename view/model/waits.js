/* Who waits for whom, and whether they wait in a ring. A wait is told by a turn that waited, and lasts as long as nothing has come. */

// What a process waits for at t: of which kind, by which name, for which processes; null where it waits for nothing.
function waitOf(run, p, t) {
  const process = run.processes[p], last = lastUpTo(process.turns, t), turn = run.turns[last];
  if (!last || turn.kind !== "waits" || isUndone(run, last, t)) return null;
  const [, kind, name] = turn.what, isBounded = process.levels.at(t).length > 0;
  if (kind === "line") {
    const { number, members } = run.conversations[run.numberOf.conversation.get(name)];
    const late = members.filter(m => !atLineAt(run, m, number, t));
    return process.state.at(t).is === "line" && late.length ? { kind, name, of: late, isBounded } : null;
  }
  const channel = run.channels[run.numberOf.channel.get(name)], numbers = channel.numbers.at(t);
  const isThere = kind === "message" ? numbers.seen > numbers.taken : numbers.free > 0;
  return isThere ? null : { kind, name, of: [kind === "message" ? channel.from : channel.to], isBounded };
}

const waitsAt = (run, t) => run.processes.map((_, p) => waitOf(run, p, t));

// Some processes each of which waits for the next, and the last for the first; none where nobody does.
function ringOf(waits) {
  const done = new Set();
  for (let first = 0; first < waits.length; first++) {
    const ring = ringFrom(waits, first, [], done);
    if (ring) return ring;
  }
  return [];
}

function ringFrom(waits, p, way, done) {
  if (way.includes(p)) return way.slice(way.indexOf(p));
  if (!waits[p] || done.has(p)) return null;
  way.push(p);
  for (const q of waits[p].of) {
    const ring = ringFrom(waits, q, way, done);
    if (ring) return ring;
  }
  way.pop();
  done.add(p);
  return null;
}

// Since which turn all of a ring have waited without a break.
function ringSince(run, ring, t) {
  return Math.max(...ring.map(p => {
    const { turns } = run.processes[p];
    let k = countUpTo(turns, t) - 1;
    while (k > 0 && run.turns[turns[k - 1]].kind === "waits") k--;
    return turns[k];
  }));
}

// The ring at t, if there is one: its processes, what each waits for, since when, and whether a rejection may end it.
function standstillAt(run, t) {
  const waits = waitsAt(run, t), ring = ringOf(waits);
  if (!ring.length) return null;
  return { ring, waits, since: ringSince(run, ring, t), isBounded: ring.some(p => waits[p].isBounded) };
}
