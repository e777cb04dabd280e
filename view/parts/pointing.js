/* Pointing at the picture: what is there is told, and a click goes there. Marks of turns are found by their place. */
function placeUnder(event) {
  const box = element("drawing").getBoundingClientRect();
  const x = (event.clientX - box.left) / view.scale, y = (event.clientY - box.top + view.y) / view.scale;
  const which = view.layouts.length > 1 && y >= view.layouts[1].top ? 1 : 0, layout = view.layouts[which];
  return { x, inPicture: x + view.x / view.scale, y: y - layout.top, which, layout };
}

// The thing at a place, as a key, or "".
function thingAt(event, { x, inPicture, y, layout }) {
  if (x < LEFT - 4) return "";
  const drawn = event.target.closest("[data-thing]");
  if (drawn) return drawn.dataset.thing;
  const column = Math.floor((inPicture - LEFT - 10) / layout.width);
  if (layout.width < TINY || column < 0 || column >= layout.count) return "";
  const turn = layout.run.turns[layout.turnOf(column)], lane = layout.lanes[turn.process];
  return turn.number <= state.turn && Math.abs(y - lane.marks) <= 10 ? `turn:${turn.number}` : "";
}

function act(event) {
  const place = placeUnder(event), lane = place.layout.lanes.findIndex(l => place.y >= l.top - 6 && place.y <= l.bottom + 6);
  if (place.x < LEFT - 4) { if (lane >= 0 && place.which === 0) choose(lane); return; }
  const [what, which] = thingAt(event, place).split(":"), { run: of } = place.layout;
  if (what === "turn") go(+which);
  else if (what === "return") go(of.returns[which].turn);
  else if (what === "parting") go(PARTINGS[which].turns[place.which]);
  else if (what === "message" || what === "receipt") askOf(what, +which, place);
  else go(turnAt(place.layout, place.inPicture));
}

// A message that is clicked is asked for, if it is of the shown run.
function askOf(what, which, { which: of, layout, inPicture }) {
  if (of !== 0) return go(turnAt(layout, inPicture));
  return ask("message", { id: what === "message" ? which : run.receipts[which].message.id });
}

function tell(event) {
  const tip = element("tip"), place = placeUnder(event), thing = thingAt(event, place);
  tip.hidden = !thing;
  if (!thing) return;
  speakOf(place.which);
  try { tip.textContent = wordsOfThing(thing, Math.min(state.turn, LAST)); } finally { speakOf(0); }
  tip.style.left = `${Math.min(event.clientX + 14, innerWidth - tip.offsetWidth - 8)}px`;
  const isLow = event.clientY + 18 + tip.offsetHeight > innerHeight;
  tip.style.top = `${isLow ? event.clientY - tip.offsetHeight - 10 : event.clientY + 18}px`;
}

function listenToPointing() {
  const svg = element("drawing"), box = element("picture");
  const hide = () => { element("tip").hidden = true; };
  svg.addEventListener("click", act);
  svg.addEventListener("mousemove", event => { if (!event.buttons) tell(event); });
  svg.addEventListener("mouseleave", hide);
  let asked = 0;
  box.addEventListener("scroll", () => {
    hide();
    if (Math.abs(box.scrollLeft - view.x) < 1 && Math.abs(box.scrollTop - view.y) < 1) return;
    asked = asked || requestAnimationFrame(() => { asked = 0; measure(); draw(); });
  });
  new ResizeObserver(() => { if (run && run.processes.length) resize(); }).observe(box);
}

function resize() {
  if (element("picture").clientWidth === view.w && element("picture").clientHeight === view.h) return;
  measure();
  layOverview();
  drawWhole();
  show(true);
}
