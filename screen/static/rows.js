// The rows of a schedule: an event, or a block of many.
import { $, el, count, hue } from "./make.js";
import { part } from "./morph.js";
import { does } from "./press.js";
import { HEIGHT, indent, isOther } from "./lanes.js";
import { state, tag, operation, place, threadName, clientName, spoken } from "./words.js";

const space = $("space");
export const events = { click: null };

function cell(row, ...inner) {
  const made = el("span", `cell ${hue(row.thread)}`, ...inner);
  made.style.marginLeft = indent(row.thread);
  return made;
}

function code(row, source) {
  const line = source?.[row.location];
  return [place(row.location, Boolean(line)), line ? el("code", "", line) : null];
}

const isNew = (row) => row.by !== undefined && row.by !== state.client && row.entry >= state.marked;

function position(row) {
  const made = el("span", `pos${isNew(row) ? " new" : ""}`, String(row.position));
  if (row.by !== undefined) made.title = `put here by ${clientName(row.by)} in entry ${row.entry}`;
  return made;
}

// What a screen reader says of a row.
function label(row) {
  const at = `position ${row.position}, `;
  if (row.size) return `${at}block of ${count(row.size)} events of ${threadName(row.thread)}`;
  const write = row.writer < 0 ? "initial value" : `write at ${row.writer}`;
  const reads = row.writer === undefined ? "" : `, reads the ${write}`;
  const news = isNew(row) ? `, put here by ${clientName(row.by)}` : "";
  return `${at}${spoken(row)}${reads}${state.aim?.includes(row.event) ? ", of the aim" : ""}${news}`;
}

function finish(made, row, isOn) {
  made.dataset.p = row.position;
  does(made, ({ clicks }) => events.click(row, clicks));
  made.setAttribute("role", "option");
  made.setAttribute("aria-label", label(row));
  made.setAttribute("aria-selected", isOn);
  return made;
}

function put(node, name, value) {
  if (node.getAttribute(name) !== value) node.setAttribute(name, value);
}

// Puts rows in their places. A step often moves rows and changes nothing in them, so they are not drawn anew for that.
export function stand(win) {
  const total = String(win.total);
  win.rows.forEach((row, number) => {
    const [node, at] = [$(`at-${row.position}`), win.from + number];
    const top = `${at * HEIGHT}px`;
    if (node.style.top !== top) node.style.top = top;
    put(node, "aria-posinset", String(at + 1));
    put(node, "aria-setsize", total);
  });
}

function single(row, source, isFirst, classes) {
  const aimed = state.aim?.includes(row.event) ? " aimed" : "";
  const what = el("span", "what", isOther(row.thread) ? [tag(row.thread), " "] : null, operation(row));
  what.title = `${row.operation} ${row.name}`;
  const made = el("div", `row${classes}${aimed}`, position(row), el("span", "event num", String(row.event)),
    el("span", "lanes", cell(row, el("i", `node n-${row.operation}${isFirst ? " first" : ""}`), what)),
    el("span", "info", code(row, source)));
  made.dataset.place = row.location;
  return made;
}

const WORDS = [["w", 1], ["r", 0], ["acq", 2], ["rel", 3], ["fork", 4], ["join", 5]];

function block(row, classes) {
  const done = WORDS.filter(([, at]) => row.operations[at]);
  const words = done.map(([word, at]) => `${count(row.operations[at])} ${word}`);
  const box = el("span", "box", isOther(row.thread) ? [tag(row.thread), " "] : null, `${count(row.size)} events `,
    el("span", "dim num", `${row.first.event}–${row.last.event}`));
  const made = el("div", `row block${classes}`, position(row), el("span", "event num", "⋯"),
    el("span", "lanes", cell(row, box)),
    el("span", "info",
      el("span", "span", place(row.first.location, true), " … ", place(row.last.location, true)),
      el("span", "dim counts", words.join(" · "))));
  made.dataset.block = row.size;
  const last = row.position + row.size - 1;
  const text = `${threadName(row.thread)}: ${count(row.size)} events, positions ${row.position} to ${last}`;
  made.title = `${text}. Enter or a click opens it.`;
  return made;
}

export function rows(win, cursor) {
  let before = null;
  const base = JSON.stringify([win.lanes, space.style.getPropertyValue("--lanes"), state.aim]);
  return win.rows.map((row) => {
    const [isOn, isFirst] = [row.position === cursor, before !== row.thread];
    const classes = isOn ? " on" : "";
    before = row.thread;
    const about = [row, isOn, isFirst, isNew(row), clientName(row.by), win.source?.[row.location]];
    const sign = JSON.stringify(about) + base;
    return part(`at-${row.position}`, sign, () => finish(
      row.size ? block(row, classes) : single(row, win.source, isFirst, classes), row, isOn));
  });
}

export const rowElement = (at) => space.querySelector(`.row[data-p="${at}"]`);
