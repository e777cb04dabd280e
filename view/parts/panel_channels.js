/* Channels with what is in them, and conversations with who is inside. What has to do with the shown process comes first. */
const MOST_FREE = 8, MOST_TAKEN = 3;

const isOwn = thing => thing.members ? thing.members.includes(state.process) : thing.from === state.process || thing.to === state.process;
const ownFirst = things => [...things.filter(isOwn), ...things.filter(thing => !isOwn(thing))];

function cell(message, k, taken, forGood, seen) {
  const [name, says] = k < forGood ? ["taken", "taken for good"] : k < taken ? ["taken kept", "taken inside a block: it keeps its place"]
    : k < seen ? ["there", "the receiver can take it"] : ["there unseen", "sent inside a block: the receiver can not see it yet"];
  const isChosen = isAsked("message", { id: message.id }), label = `${escaped(message.value)}: ${says}. Its send and its receive.`;
  const asks = `data-message="${message.id}" aria-pressed="${isChosen}" title="${says}" aria-label="${label}"`;
  return `<button class="cell ${name}" ${asks}>${escaped(message.value)}</button>`;
}

function channelBox(channel, t) {
  const { sent, taken, seen, free } = channel.numbers.at(t), forGood = Model.takenForGood(run, channel, t), first = Math.max(0, taken - MOST_TAKEN);
  const cells = Model.openAt(channel, t, first).map((message, k) => cell(message, first + k, taken, forGood, seen));
  const room = Array.from({ length: Math.min(free, MOST_FREE) }, () => `<span class="cell free" title="room"></span>`);
  const head = `<b>${escaped(channel.name)}</b> ${escaped(nameOf(channel.from))} → ${escaped(nameOf(channel.to))}`;
  const numbers = `<span class="note">sent ${sent}, taken ${taken}, room ${free} of ${channel.size}</span>`;
  return `<div class="box${isOwn(channel) ? "" : " far"}"><p>${head} ${numbers}</p>` +
    `<p class="cells">${first ? "… " : ""}${cells.join("")}${room.join("")}${free > MOST_FREE ? " …" : ""}</p></div>`;
}

// What a conversation has come to: the session that is open, or how the last one ended.
function conversationStands(conversation, t) {
  if (conversation.state.at(t).broken) return "broken: none can enter it any more";
  const of = conversation.alternates, session = lastSession(conversation, t);
  if (!session) return `not entered yet, ${many(of, "alternate")}`;
  const one = session.tries.filter((each, k) => k === 0 || each.from <= t).pop();
  if (!session.end || session.end > t) return `alternate ${one.alternate} of ${of}, open since turn ${grouped(session.from)}`;
  if (session.how === "accepted") return `passed in turn ${grouped(session.end)} with alternate ${one.alternate} of ${of}`;
  return `rejected in turn ${grouped(session.end)} with alternate ${one.alternate} of ${of}`;
}

function lastSession(conversation, t) {
  if (conversation.sessions === undefined) {
    conversation.sessions = run.sessions.filter(session => session.conversation === conversation.number);
    conversation.begins = conversation.sessions.map(session => session.from);
  }
  return conversation.sessions[Model.countUpTo(conversation.begins, t) - 1];
}

function conversationBox(conversation, t) {
  const members = conversation.members.map(m => {
    const isInside = Model.insideAt(run, m, conversation.number, t), isAtLine = isInside && Model.atLineAt(run, m, conversation.number, t);
    const [name, how] = isAtLine ? [" line", " at the line"] : isInside ? [" inside", " inside"] : ["", ""];
    return `<span class="member${name}">${escaped(nameOf(m))}${how}</span>`;
  });
  const head = `<b>${escaped(conversation.name)}</b> <span class="note">${conversationStands(conversation, t)}</span>`;
  return `<div class="box${isOwn(conversation) ? "" : " far"}"><p>${head}</p><p class="cells">${members.join("")}</p></div>`;
}

function showChannels() {
  const t = Math.min(state.turn, LAST);
  const boxes = [...ownFirst(run.channels).map(c => channelBox(c, t)), ...ownFirst(run.conversations).map(c => conversationBox(c, t))];
  setMarkup("channels", boxes.join("") || '<p class="note">none</p>');
}

function listenToChannels() {
  element("channels").addEventListener("click", event => {
    const button = event.target.closest("[data-message]");
    if (button) ask("message", { id: +button.dataset.message });
  });
}
