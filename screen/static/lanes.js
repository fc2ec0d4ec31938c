// The places of lanes: one a thread, close together, since each row has one event, whose text may run over the lanes
// to its right.
import { $, el, fill, hue, count } from "./make.js";
import { part } from "./morph.js";
import { state, threadName } from "./words.js";

// The height of a row; where the first lane begins; where the axis of a lane is in it.
export const HEIGHT = 22;
const GUTTER = 92;
const AXIS = 17;
// With less breadth than this names, places and lanes have the least that can be read.
const NARROW = 480;
// The least and the most breadth that places keep if there are too many lanes: then lanes are scrolled under them.
const [PLACE, PLACES] = [112, 126];
const [space, stage] = [$("space"), $("stage")];

let lanes = new Map();
let width = 0;
let hasOthers = false;
let text = 0; // the breadth that an event's text has
let kept = 0; // the breadth that places keep in sight while lanes are scrolled, or 0

export const lane = (thread) => lanes.get(thread) ?? lanes.size;
export const isOther = (thread) => !lanes.has(thread);
export const left = (thread) => GUTTER + lane(thread) * width;
export const axis = (thread) => left(thread) + AXIS;
export const indent = (thread) => `${lane(thread) * width}px`;

export function lay(win, breadth) {
  lanes = new Map(win.lanes.map((thread, at) => [thread, at]));
  hasOthers = win.counts.some(([thread]) => !lanes.has(thread));
  const number = Math.max(1, lanes.size + (hasOthers ? 1 : 0));
  const [least, code, close] = breadth < NARROW ? [110, breadth * 0.3, 14] : [150, Math.max(200, breadth * 0.44), 22];
  const name = Math.round(Math.max(least, Math.min(300, breadth * 0.19)));
  const room = breadth - GUTTER - code - name;
  width = Math.max(close, Math.min(132, Math.floor(room / Math.max(1, number - 1))));
  const all = (number - 1) * width + name;
  text = name;
  kept = breadth - GUTTER - all < Math.min(PLACES, code) ? Math.round(Math.max(PLACE, Math.min(PLACES, code))) : 0;
  space.style.setProperty("--lanes", `${all}px`);
  space.style.setProperty("--place", `${kept}px`);
  space.style.width = kept ? `${GUTTER + all + kept}px` : "";
  space.classList.toggle("sideways", kept > 0);
  space.classList.toggle("sourced", Boolean(win.source && Object.keys(win.source).length));
  head(win, number, name, kept ? breadth - kept : GUTTER + all);
  followHead();
}

// The names of lanes go sideways with them, and that of places stays.
function followHead() {
  $("lanes-head").style.setProperty("--sideways", `${stage.scrollLeft}px`);
}
stage.addEventListener("scroll", followHead, { passive: true });

// Scrolls sideways to what a thread does: to the beginning if that shows it, else no farther than is needed.
export function reveal(thread) {
  if (!kept) return;
  const least = Math.max(0, left(thread) + text - (stage.clientWidth - kept));
  const isInSight = least <= stage.scrollLeft && stage.scrollLeft <= left(thread);
  if (!least || !isInSight) stage.scrollLeft = least;
}

function named(thread, own, at, size) {
  const whole = state.threads[thread][1];
  const cell = el("span", `lane-name ${hue(thread)}${width < 40 ? " tight" : ""}${width < 20 ? " close" : ""}`,
    el("bdi", "", threadName(thread)), width < 88 ? null : el("span", "dim num", ` ${own}/${whole}`));
  cell.title = `${threadName(thread)}: ${count(own)} of ${count(whole)} events`;
  cell.style.left = `${GUTTER + at * width}px`;
  cell.style.width = `${size}px`;
  return cell;
}

function head(win, number, room, places) {
  const made = new Map(win.counts);
  const names = win.lanes.map((thread, at) => {
    const [own, size] = [made.get(thread) ?? 0, at < number - 1 ? width : room];
    return part(`lane-${thread}`, `${own} ${at} ${width} ${size}`, () => named(thread, own, at, size));
  });
  if (hasOthers) {
    const cell = el("span", "lane-name", "others");
    cell.style.left = `${GUTTER + lanes.size * width}px`;
    names.push(cell);
  }
  const code = el("span", "lane-name dim place-name", win.source ? "place and source" : "place");
  code.style.left = `${places + 3}px`;
  fill($("lanes-head"), el("span", "lane-name dim pos-name", "#"), el("span", "lane-name dim event-name", "event"),
    names, code);
}

function railOf(at) {
  const line = el("div", "rail-line");
  line.style.left = `${GUTTER + at * width + AXIS}px`;
  return line;
}

export function rails() {
  const number = lanes.size + (hasOthers ? 1 : 0);
  return Array.from({ length: number }, (_, at) => part(`rail-${at}`, `${width}`, () => railOf(at)));
}

function bar(held, slot) {
  const made = el("div", `lock${held.open ? " open" : ""} k${held.lock % 4}`);
  made.style.left = `${left(held.thread) + 1 + Math.min(slot, 2) * 4}px`;
  made.style.top = `${held.from * HEIGHT + HEIGHT / 2}px`;
  const beyond = held.open ? HEIGHT / 2 : 0; // one that is held still ends with the last row
  made.style.height = `${Math.max(6, (held.to - held.from) * HEIGHT - beyond)}px`;
  made.title = `${held.name}, held by ${threadName(held.thread)} since ${held.event}`;
  return made;
}

// The bars of locks: those that a thread holds at once are side by side.
export function bars(locks) {
  const slots = new Map();
  return locks.map((held) => {
    const mine = slots.get(held.thread) ?? [];
    let slot = mine.findIndex((until) => until <= held.from);
    if (slot < 0) slot = mine.length;
    mine[slot] = held.to;
    slots.set(held.thread, mine);
    return part(`lock-${held.event}`, JSON.stringify([held, slot, left(held.thread)]), () => bar(held, slot));
  });
}
