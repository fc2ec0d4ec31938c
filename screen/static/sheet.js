// The schedule: rows of one height, of which only a window is fetched and drawn; the cursor, and swaps.
import { $, el, fill, nameChosen } from "./make.js";
import { ask, isOpen } from "./net.js";
import { state, viewed } from "./words.js";
import { HEIGHT, lay, rails, bars, reveal } from "./lanes.js";
import * as drawn from "./rows.js";
import * as edges from "./edges.js";
import * as map from "./map.js";
import { later } from "./queue.js";

// How many rows beyond the sight are drawn on both sides.
const AHEAD = 24;
// The text of a row without an event, and its height.
const NONE_YET = "No events yet. Choose one below.";
const NONE_NEEDED = "No events are needed before these two.";
const NOTHING = 36;
// The farthest that an event is moved at once.
const FARTHEST = 64;
const stage = $("stage");
const space = $("space");
export const events = { act: null, say: null, lost: null };

// What an answer brings in sight: the end, a position, or what is in sight already (null).
const END = "end";
// What the server says of a witness that it kept no longer.
const LOST = "no such witness";

let win = null;
let asked = 0;
let taken = 0; // the number of the request that was drawn last
let latest = null; // the promise of what was asked last
let goal = END;
let seen = 0; // how far it was scrolled when the goal was set
let isHidden = false; // another part is shown in its place
let cursor = null; // a position
let on = null; // the event there, unless it is a block
let stop = null;
let hovered = null;
let height = 0;
let breadth = 0;

export const current = () => win;

// What is shown of the open schedule: how many entries the log had when it was drawn.
export function shown() {
  const name = state.view?.schedule;
  return name && win ? { name, log_length: win.log_length } : null;
}

// What a step by position is for: what was shown when it was made, unless another schedule was opened since.
export function meant(before) {
  const name = state.view?.schedule;
  return before?.name === name ? before : shown() ?? { name, log_length: state.logLength };
}
export const cursorRow = () => win?.rows.find((row) => row.position === cursor) ?? null;

const visible = () => Math.ceil((height || stage.clientHeight) / HEIGHT) + 1;
// While another part is shown in its place, it is scrolled nowhere.
const top = () => (isHidden || !stage.clientHeight ? seen : stage.scrollTop);
const topRow = () => Math.floor(top() / HEIGHT);
// A change of size may not be drawn yet: then the end is in sight if it was so before, or is so now.
const isAtEnd = () => stage.scrollTop + Math.max(height, stage.clientHeight) > stage.scrollHeight - HEIGHT * 2;
const whereItStands = () => (!isHidden && isAtEnd() ? END : null);

function want(what) {
  goal = what;
  seen = top();
}

// Who scrolls says with it what is to stay in sight. The event of it may come later than an answer.
function heed() {
  if ((goal === END || goal === null) && top() !== seen) want(whereItStands());
}

function scrollTo(to) {
  stage.scrollTop = seen = to;
  seen = top();
}

// Nothing is drawn until the next answer. The end is what that shows, or where it stood. If it is the same schedule
// again, the cursor stays.
export function reset({ end = false, isSame = false } = {}) {
  win = stop = null;
  if (!isSame) cursor = on = null;
  if (end) want(END);
  taken = ++asked; // no answer to what was asked before is drawn
  latest = null;
  fill($("lanes-head"));
  render();
}

// Requests rows, draws them, and brings in sight what is wanted. A request that is overtaken waits for the later one.
// It is drawn before that if the same is wanted, so that rows come while others work all the time.
export function load(given = {}) {
  latest = fetchRows(given);
  return latest;
}

async function fetchRows({ to, toggle }) {
  if (!state.view) {
    reset();
    return null;
  }
  if (to === undefined) heed();
  else want(to);
  const [mine, view, wanted] = [++asked, state.view, goal];
  const from = wanted === END ? null : Math.max(0, topRow() - AHEAD);
  const given = { view: viewed(view), aim: state.aim, count: visible() + 2 * AHEAD, from };
  if (typeof wanted === "number") given.at = wanted;
  if (toggle !== undefined) given.toggle = toggle;
  const told = await ask("view", given);
  if (view !== state.view || told.lost) return null; // what is drawn stays until the connection comes back
  const isLatest = mine === asked;
  if (mine < taken || (!isLatest && told.mistake)) return latest;
  if (told.mistake) {
    reset();
    if (told.mistake === LOST) events.lost();
    return null;
  }
  heed();
  if (goal !== wanted) return isLatest ? load() : latest; // somebody scrolled before the answer came
  taken = mine;
  take(told);
  return null; // others may go on for ever, so nobody waits for what came after it
}

function take(told) {
  const first = goal === null ? win?.rows[topRow() - win.from] : null;
  win = told;
  follow();
  draw();
  if (goal === END) scrollTo(win.total * HEIGHT);
  else if (goal === null) stay(first);
  else {
    scrollTo(Math.max(0, told.row * HEIGHT - stage.clientHeight / 2));
    want(whereItStands());
  }
  map.mark();
}

// The cursor stays on its event, wherever others move it. A block that takes the event in has the cursor.
function follow() {
  if (cursor === null) return;
  const row = on === null ? null : win.rows.find((one) => one.event === on);
  const around = win.rows[edges.rowAt(win, cursor)];
  if (row) cursor = row.position;
  else if (around?.size) cursor = around.position;
}

function draw() {
  breadth ||= stage.clientWidth;
  height ||= stage.clientHeight;
  lay(win, breadth);
  settle();
  render();
}

// A short schedule is at the foot, beside what comes next.
function settle() {
  const all = win.total ? win.total * HEIGHT + 6 : NOTHING;
  space.style.height = `${all}px`;
  space.style.setProperty("--base", `${Math.max(0, height - all)}px`);
}

// After a step of anyone. The end stays in sight if it was in sight; a step of this analyst brings it there.
export async function refresh(isMine) {
  stop = null;
  await load(isMine ? { to: END } : {});
  if (isMine && win?.rows.length) reveal(win.rows.at(-1).thread);
}

// Keeps the row at the top in its place, if rows above it came or went.
function stay(row) {
  const at = row ? edges.rowAt(win, row.position) : -1;
  if (at >= 0 && win.from + at !== topRow()) scrollTo(top() + (win.from + at - topRow()) * HEIGHT);
}

function render() {
  edges.clear();
  map.draw(win, visible());
  fill(space, $("edges"), win ? inside() : null);
  if (win) drawn.stand(win);
  nameChosen(stage);
  if (win) edges.show(win, hovered ?? cursor);
}

// What was news is marked as seen.
export const redraw = () => win && render();

function inside() {
  const made = [...rails(), ...bars(win.locks), ...drawn.rows(win, cursor)];
  if (win.total === 0) made.push(el("p", "empty", state.view?.witness ? NONE_NEEDED : NONE_YET));
  if (stop) {
    const told = el("div", "stop", stop.text);
    told.style.top = `${stop.row * HEIGHT}px`;
    made.push(told);
  }
  return made;
}

// The cursor.

export function select(position, { into = true } = {}) {
  const old = cursor === null ? null : drawn.rowElement(cursor);
  old?.classList.remove("on");
  old?.setAttribute("aria-selected", "false");
  cursor = position;
  on = cursorRow()?.event ?? null;
  const made = drawn.rowElement(position);
  made?.classList.add("on");
  made?.setAttribute("aria-selected", "true");
  if (made) stage.setAttribute("aria-activedescendant", made.id);
  if (into && made) {
    const top = parseFloat(made.style.top);
    if (top < stage.scrollTop) stage.scrollTop = top;
    else if (top + HEIGHT > stage.scrollTop + stage.clientHeight) stage.scrollTop = top + HEIGHT - stage.clientHeight;
    reveal(cursorRow().thread);
  }
  edges.show(win, position);
}

export function step(by) {
  if (!win?.rows.length) return;
  const last = win.rows.length - 1;
  const at = cursor === null ? last + 1 : edges.rowAt(win, cursor);
  const next = at < 0 ? topRow() - win.from : at + by; // the first in sight, if the cursor is far away
  select(win.rows[Math.max(0, Math.min(last, next))].position);
}

// Puts the cursor on an event, or on the block that has it.
function land(position, how) {
  const at = win ? edges.rowAt(win, position) : -1;
  if (at >= 0) select(win.rows[at].position, how);
}

export async function jump(position) {
  await load({ to: position });
  land(position);
}

export async function toggle(position) {
  await load({ toggle: position, to: position });
  land(position, { into: false });
}

// Opens or closes a block, or goes to the write that is read.
export async function enter() {
  const row = cursorRow();
  if (row?.size || (row?.is_open && !(row.writer >= 0))) await toggle(row.position);
  else if (row?.writer >= 0) await jump(row.writer);
  else if (row?.writer === -1) events.say("it reads the initial value");
  else if (row) events.say("it is neither a block nor a read of a write");
  else events.say("choose an event first: ↑ and ↓ move the cursor");
}

// Moves an event as far as it goes; why it goes no farther is shown between the two rows.
export async function swap(before, position, by) {
  if (!by) return;
  stop = null;
  const moved = win?.rows.find((row) => row.position === position)?.event ?? null;
  const told = await events.act(before, "swap", { name: before.name, position, by });
  if (told.mistake || told.gone || told.changed) return;
  cursor = position + (by > 0 ? told.moved : -told.moved);
  on = moved;
  await load();
  if (told.stop && win) {
    stop = { row: win.from + edges.rowAt(win, told.stop.position) + 1, text: `stays: ${told.stop.why}` };
    render();
  }
  land(cursor);
}

// The mouse.

let drag = null;
stage.addEventListener("pointerdown", (event) => {
  const row = event.target.closest(".row");
  if (!row || event.button || row.dataset.block || !state.view?.schedule || !event.target.closest(".lanes")) return;
  drag = { position: Number(row.dataset.p), shown: shown(), y: event.clientY, by: 0, row };
});
stage.addEventListener("dragstart", (event) => event.preventDefault());
stage.addEventListener("pointermove", (event) => {
  if (!drag) return;
  const by = Math.round((event.clientY - drag.y) / HEIGHT);
  if (by === drag.by) return;
  drag.by = by;
  drag.row.classList.toggle("dragged", by !== 0);
  drag.row.style.transform = `translateY(${by * HEIGHT}px)`;
});
// The row that is dragged goes back.
export function letGo() {
  const mine = drag;
  drag = null;
  mine?.row.classList.remove("dragged");
  if (mine) mine.row.style.transform = "";
  return mine;
}
addEventListener("pointercancel", letGo);
addEventListener("pointerup", () => {
  const mine = letGo();
  if (!mine?.by || !win || mine.shown?.name !== state.view?.schedule) return;
  const at = win.rows.findIndex((row) => row.position === mine.position);
  const other = win.rows[Math.max(0, Math.min(win.rows.length - 1, at + mine.by))];
  const by = at < 0 ? mine.by : other.position - mine.position;
  // It is for the row as it was when the button went down, so what this page did since is no part of it.
  later(() => swap({ ...mine.shown, since: [] }, mine.position, Math.max(-FARTHEST, Math.min(FARTHEST, by))));
});

// A double click on a block opens it, whether the second press hits its events or not. One on an event that was drawn
// before closes the block.
let wasBlock = false;
drawn.events.click = (row, clicks) => {
  if (clicks < 2) wasBlock = Boolean(row.size);
  if (!row.size) select(row.position, { into: false });
  else if (clicks < 2) toggle(row.position);
};
stage.addEventListener("dblclick", (event) => {
  const row = event.target.closest(".row");
  const at = Number(row?.dataset.p);
  if (row && !wasBlock && !row.dataset.block && win?.rows.find((one) => one.position === at)?.is_open) toggle(at);
});
stage.addEventListener("mousemove", (event) => {
  const row = event.target.closest(".row");
  const at = row && !row.dataset.block ? Number(row.dataset.p) : null;
  if (at === hovered) return;
  hovered = at;
  edges.show(win, hovered ?? cursor);
});
stage.addEventListener("mouseleave", () => {
  hovered = null;
  edges.show(win, cursor);
});

// Scrolling.

let pending = false;
function wants() {
  const at = topRow();
  const end = win.from + win.rows.length;
  return (at < win.from && win.from > 0) || (at + visible() > end && end < win.total);
}

function fetchMore() {
  if (!win || pending || !isOpen() || !wants()) return;
  pending = true;
  requestAnimationFrame(async () => {
    try {
      do await load(); while (win && isOpen() && wants());
    } finally {
      pending = false;
    }
  });
}

stage.addEventListener("scroll", () => {
  map.mark();
  heed();
  fetchMore();
}, { passive: true });

new ResizeObserver(() => {
  const wasHidden = isHidden;
  isHidden = !stage.clientHeight;
  if (isHidden) return;
  if (wasHidden) scrollTo(seen);
  heed();
  height = stage.clientHeight;
  breadth = stage.clientWidth;
  if (!win) return;
  draw();
  if (goal === END) scrollTo(stage.scrollHeight);
  map.mark();
  fetchMore();
}).observe(stage);
