/* Conversations: a field over the lanes of the members for each alternate, from the recovery line to the test line. */
function drawConversations(scene) {
  for (const session of scene.near("sessions").sort((a, b) => a.depth - b.depth)) {
    if (session.from > scene.now || scene.isLeftOut(session.from)) continue;
    const entries = session.entries.filter(e => e.turn <= scene.now && !scene.isLeftOut(e.turn)).sort((a, b) => a.process - b.process);
    if (!entries.length) continue;
    session.tries.filter((one, k) => k === 0 || one.from <= scene.now).forEach((one, k) => drawTry(scene, session, entries, one, k));
    drawRecoveryLine(scene, session, entries);
  }
}

function fieldTop(scene, session, p) {
  const lane = scene.lanes[p];
  return lane.top + Math.min(session.depth, MOST_ROWS - 1, lane.rows) * lane.row + 1;
}
const fieldBottom = (scene, session, p) => scene.lanes[p].bottom - (scene.lanes[p].folded ? 0 : session.depth * 2);

function drawTry(scene, session, entries, one, k) {
  const ended = scene.known(one.to), how = ended ? one.how : "open", gone = scene.isGone(session.from);
  const dead = gone || how === "rejected" || how === "undone";
  if (state.survivors && dead) return;
  const members = entries.filter(e => !ended || e.turn < ended);
  const right = ended ? scene.x(ended) + (how === "accepted" ? scene.edge : 0) : scene.end;
  const left = e => state.survivors || e.turn > one.from || k === 0 ? scene.x(e.turn) : scene.x(one.from) + Math.min(3, scene.width / 2);
  const key = `try:${session.id}:${k}`, colour = `field${session.depth % 3}`;
  scene.under.push(scene.thing(key, "", `<path class="${colour}${dead ? " gone" : ""}" d="${fieldPath(scene, session, members, left, right)}"/>`));
  nameTry(scene, session, members, one, left, right, dead ? " gone" : how === "accepted" ? " good" : "");
  const isEnded = how === "rejected" || how === "undone";
  if (isEnded) scene.over.push(acrossLanes(scene, session, members, "ended" + (gone || how === "undone" ? " gone" : ""), right));
  if (how === "accepted") drawTestLine(scene, session, members, right, gone ? " gone" : "", key);
}

function fieldPath(scene, session, members, left, right) {
  let path = "";
  members.forEach((e, i) => {
    const top = fieldTop(scene, session, e.process), bottom = fieldBottom(scene, session, e.process), next = members[i + 1];
    path += `M${left(e)} ${top}H${right}V${bottom}H${left(e)}Z`;
    if (!next || next.process !== e.process + 1) return;
    path += `M${left(e)} ${bottom - 0.5}H${right}V${fieldTop(scene, session, next.process) + 0.5}H${left(next)}Z`;
  });
  return path;
}

// The name of the conversation and the alternate's number, in the first lane of the field that is seen.
function nameTry(scene, session, members, one, left, right, how) {
  const e = members.find(m => !scene.lanes[m.process].folded && scene.lanes[m.process].bottom > scene.window.y + AXIS + 8);
  if (!e) return;
  const from = Math.max(left(e), scene.leftEdge), { name } = scene.run.conversations[session.conversation];
  const texts = [`${name}, alternate ${one.alternate}`, `${name} ${one.alternate}`, String(one.alternate)];
  const rank = how === " gone" ? "rejected" : "conversation";
  scene.labels.ask(rank, from + 5, fieldTop(scene, session, e.process) + 11, texts, `number${how}`, { most: right - from - 7 });
}

// An upright line through the lanes of the members; through those of others it is dotted.
function acrossLanes(scene, session, members, name, x) {
  let near = "", far = "";
  members.forEach((e, i) => {
    const bottom = fieldBottom(scene, session, e.process), next = members[i + 1];
    near += `M${x} ${fieldTop(scene, session, e.process)}V${bottom}`;
    if (next && next.process === e.process + 1) near += `V${fieldTop(scene, session, next.process)}`;
    else if (next) far += `M${x} ${bottom}V${fieldTop(scene, session, next.process)}`;
  });
  return `<path class="${name}" d="${near}"/>` + (far ? `<path class="${name} far" d="${far}"/>` : "");
}

function drawTestLine(scene, session, members, x, gone, key) {
  const lines = [x - 1.5, x + 2].map(at => acrossLanes(scene, session, members, "test" + gone, at));
  scene.over.push(scene.thing(key, "", lines.join("")));
  if (scene.dense || session.depth > 0) return;
  const bottom = fieldBottom(scene, session, members[members.length - 1].process);
  scene.labels.ask("line", x, bottom + 12, ["test line"], `legend tests${gone}`, { font: FONTS.plain, isMiddle: true });
}

// The recovery line: through the entries of all members.
function drawRecoveryLine(scene, session, entries) {
  let near = "", far = "";
  entries.forEach((e, i) => {
    const x = scene.x(e.turn), bottom = fieldBottom(scene, session, e.process), next = entries[i + 1];
    near += `M${x} ${fieldTop(scene, session, e.process)}V${bottom}`;
    if (!next) return;
    const to = `L${scene.x(next.turn)} ${fieldTop(scene, session, next.process)}`;
    if (next.process === e.process + 1) near += to; else far += `M${x} ${bottom}${to}`;
  });
  const gone = scene.isGone(session.from) ? " gone" : "";
  const shapes = `<path class="recovery${gone}" d="${near}"/>` + (far ? `<path class="recovery far${gone}" d="${far}"/>` : "");
  scene.over.unshift(scene.thing(`recovery:${session.id}`, "", shapes));
  if (scene.dense || session.depth > 0) return;
  const last = entries[entries.length - 1], y = fieldBottom(scene, session, last.process) + 12;
  scene.labels.ask("line", scene.x(last.turn) - 2, y, ["recovery line"], `legend recoveries${gone}`, { font: FONTS.plain, turned: -6 });
}
