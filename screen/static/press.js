// Clicks. Lists are drawn anew at any moment, as others work too, so what a click means is settled when the button
// goes down: then the node, and what it does, are noted, and the click does that, also if the list was drawn anew
// until the button went up.

// A hand that presses stays within this many pixels.
const NEAR = 6;
// A click comes so soon after the button went up, and the second tap of a double tap so soon after the first, in
// milliseconds. The browser itself counts the presses of a mouse.
const SOON = 600;
const DOUBLE = 400;

const acts = new WeakMap();
let pressed = null;
let before = null; // what was clicked last

// Says what a click on a node does; the nearest such node is meant.
export function does(node, act) {
  acts.set(node, act);
  return node;
}

// A node that stays does what the one that was made in its stead would do.
export function takeAct(kept, made) {
  if (acts.has(made)) acts.set(kept, acts.get(made));
  else acts.delete(kept);
}

function meant(target) {
  for (let node = target; node; node = node.parentElement) {
    if (acts.has(node)) return { node, target, act: acts.get(node) };
  }
  return null;
}

const isNear = (one, other) => Math.hypot(one.x - other.x, one.y - other.y) <= NEAR;
const isSecond = (mine, clicks) => clicks > 1 || (mine.isTap && mine.at - before.at < DOUBLE);

// The second press of a double click means what the first one meant: if something else is there by now, nothing.
const isStray = (mine, clicks) =>
  before && before.node !== mine.node && isNear(mine, before) && isSecond(mine, clicks);

addEventListener("pointerdown", (event) => {
  const isTap = event.pointerType === "touch";
  pressed = event.button ? null :
    { x: event.clientX, y: event.clientY, at: event.timeStamp, isTap, ...meant(event.target) };
}, true);
addEventListener("pointerup", () => {
  const mine = pressed;
  setTimeout(() => {
    if (pressed === mine) pressed = null;
  }, SOON);
}, true);
addEventListener("pointercancel", () => {
  pressed = null;
}, true);

// A key on a button has no press before it. Who presses one thing and lets go over another has thought better of it.
addEventListener("click", (event) => {
  const clicks = event.detail; // 2 if it is the second one of a double click
  const mine = clicks ? pressed : null;
  pressed = null;
  const here = meant(event.target);
  if (!mine) here?.act({ ...here, clicks });
  else if (!isStray(mine, clicks)) {
    before = mine;
    const isThere = here?.node === mine.node || isNear({ x: event.clientX, y: event.clientY }, mine);
    if (mine.act && isThere) mine.act({ ...mine, clicks });
  }
});
