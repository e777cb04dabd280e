/* What a thing of the picture is, in words: for whoever points at it. */
const HOW = { accepted: "is accepted", rejected: "is rejected", undone: "is undone, with all around it," };

const THINGS = {
  turn([turn], t) {
    const undone = run.undoneIn[turn];
    return sentence(+turn) + (undone && undone <= t && undone !== +turn ? ` Undone in turn ${undone}.` : "");
  },
  gap: ([from, to]) => `Left out: ${from === to ? "turn " + from : `turns ${from} to ${to}`}, undone, waiting or idle.`,
  block([id, k], t) {
    const span = run.spans[id], one = span.tries[k], how = one.to && one.to <= t ? `${HOW[one.how]} in turn ${one.to}` : "is open";
    return `Alternate ${one.alternate} of ${blockName(run.blocks[span.block])} in ${nameOf(span.process)}, entered in turn ${span.entered}, ${how}.`;
  },
  try([id, k], t) {
    const session = run.sessions[id], one = session.tries[k], ended = one.to && one.to <= t;
    const inside = session.entries.filter(e => e.turn <= t && (!ended || e.turn < one.to)).map(e => nameOf(e.process));
    const passed = `: all pass the test line in turn ${one.to}`;
    const how = !ended ? ", is open" : one.how === "accepted" ? passed : `, ${HOW[one.how]} in turn ${one.to}`;
    return `Alternate ${one.alternate} of the conversation ${run.conversations[session.conversation].name}, with ${listed(inside)} inside${how}.`;
  },
  recovery([id], t) {
    const session = run.sessions[id], entries = session.entries.filter(e => e.turn <= t).map(e => `${nameOf(e.process)} entered in turn ${e.turn}`);
    return `The recovery line of ${run.conversations[session.conversation].name}: ${listed(entries)}. Here they go back to, all together.`;
  },
  return([id]) {
    const back = run.returns[id], point = `the entry of ${blockName(run.blocks[back.block])} in turn ${back.to}`;
    const undone = back.undone.length ? `its ${turnsIn(back.undone)} ${back.undone.length === 1 ? "is" : "are"} undone` : "nothing of it is undone";
    return `In turn ${back.turn}, ${nameOf(back.process)} goes back to its recovery point, ${point}; ${undone}.`;
  },
  message([id], t) { return messageWords(run.messages[id], null, t); },
  receipt([id], t) { return messageWords(run.receipts[id].message, run.receipts[id], t); },
  held([id], t) {
    const held = run.held[id], printed = `${nameOf(held.process)} prints “${held.text}” in turn ${held.from}; `;
    if (!held.to || held.to > t) return printed + "the line is held.";
    return `${printed}held until turn ${held.to}, and then ${held.how === "dropped" ? "dropped: nobody ever sees it" : "it comes out"}.`;
  },
  out([turn, process]) {
    const outs = run.outs.filter(o => o.turn === +turn && o.process === +process);
    return `Turn ${turn}: ${outs.map(o => `“${o.text}” comes out of ${nameOf(o.process)}`).join("; ")}.`;
  },
  ring: (_, t) => ringWords(t).trim(),
  parting([k]) {
    const { process, step, turns } = PARTINGS[k], { name } = RUNS[0].processes[process];
    return `Up to here ${name} has done the same in both runs. At its step ${step} it does another thing: in turn ${turns[0]} of this run, ` +
      `in turn ${turns[1]} of the kept one.`;
  },
};

function messageWords(message, receipt, t) {
  const channel = run.channels[message.channel];
  const taken = receipt ? `, ${nameOf(channel.to)} takes it in turn ${receipt.taken}` : "";
  const back = message.back && message.back <= t ? `; taken back in turn ${message.back}, as if it had never been sent`
    : receipt && receipt.back && receipt.back <= t ? `; the receipt is undone in turn ${receipt.back}, and the message is in the channel again` : "";
  return `${message.value} on ${channel.name}: ${nameOf(channel.from)} sends it in turn ${message.sent}${taken}${back}.`;
}

function wordsOfThing(key, t) {
  const [what, ...which] = key.split(":");
  return THINGS[what](which, t);
}
