/* Messages: an arrow from each `send` to its `receive`, or a stub where nothing has taken it. */
function drawMessages(scene) {
  for (const message of scene.near("messages")) {
    if (message.sent > scene.now || scene.isLeftOut(message.sent)) continue;
    const taken = message.receipts.filter(r => r.taken <= scene.now && !scene.isLeftOut(r.taken));
    const back = scene.known(message.back);
    for (const receipt of taken) drawArrow(scene, message, receipt, back || scene.known(receipt.back));
    const isUnderWay = !taken.some(r => !scene.known(r.back));
    if (isUnderWay && !(taken.length && back)) drawStub(scene, message, back);
  }
}

// Which way a channel goes in the picture: down is 1, up is -1.
const wayOf = (scene, channel) => scene.lanes[channel.to].marks > scene.lanes[channel.from].marks ? 1 : -1;

function drawArrow(scene, message, receipt, back) {
  const channel = scene.run.channels[message.channel], way = wayOf(scene, channel), gone = back ? " gone" : "";
  const x = scene.x(message.sent), y = scene.lanes[channel.from].marks + way * 6;
  const to = scene.x(receipt.taken), end = scene.lanes[channel.to].marks - way * 7;
  if (!scene.sees(Math.min(x, to), Math.max(x, to)) || !scene.seesRows(y, end)) return;
  const bend = Math.min(Math.abs(end - y) * 0.5, 60);
  const way1 = `M${x} ${y}C${x + 2} ${y + way * bend} ${to - 2} ${end - way * bend} ${to} ${end - way * 3}`;
  scene.over.push(scene.thing(`receipt:${receipt.id}`, "", `<path class="message${gone}" d="${way1}"/>` +
    `<path class="arrow${gone}" d="M${to} ${end + way * 1.5}l-3.4 ${-way * 7}h6.8z"/>`));
  askValue(scene, message, x + 5, y + way * 10 + 4, gone);
}

function drawStub(scene, message, back) {
  const channel = scene.run.channels[message.channel], way = wayOf(scene, channel), gone = back ? " gone" : "";
  const x = scene.x(message.sent), y = scene.lanes[channel.from].marks + way * 6, end = y + way * 11;
  if (!scene.seesLane(channel.from) || !scene.sees(x, x + 12) || scene.lanes[channel.from].folded) return;
  scene.over.push(scene.thing(`message:${message.id}`, "", `<path class="message${gone}" d="M${x} ${y}V${end}M${x - 4} ${end}h8"/>`));
  askValue(scene, message, x + 6, end + (way > 0 ? 3 : 5), gone);
}

const askValue = (scene, message, x, y, gone) => scene.labels.ask(gone ? "rejected" : "value", x, y, [message.value], `value${gone}`, { turned: 11 });
