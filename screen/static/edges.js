// Who reads whom: a line from the write to each of its reads.
import { $, el, svg } from "./make.js";
import { HEIGHT, axis } from "./lanes.js";
import { rowElement } from "./rows.js";

const space = $("space");
const edges = $("edges");

export const rowAt = (win, position) =>
  win.rows.findIndex((row) => row.position <= position && position < row.position + (row.size ?? 1));

export function clear() {
  edges.replaceChildren();
  for (const old of space.querySelectorAll(".linked")) old.classList.remove("linked");
  for (const old of space.querySelectorAll(".reads")) old.remove();
}

// One end of a line; a row outside the window is drawn at its edge.
function end(win, position, row, outside) {
  const at = rowAt(win, position);
  return at < 0 ? [axis(row.thread), outside] : [axis(win.rows[at].thread), (at + 0.5) * HEIGHT];
}

function path([x1, y1], [x2, y2]) {
  const middle = (y1 + y2) / 2;
  if (x1 !== x2) return `M${x1},${y1} C${x1},${middle} ${x2},${middle} ${x2},${y2}`;
  return `M${x1},${y1} C${x1 + 26},${y1 + 8} ${x2 + 26},${y2 - 8} ${x2},${y2}`;
}

export function show(win, position) {
  clear();
  const row = win?.rows.find((one) => one.position === position && !one.size);
  if (!row) return;
  const links = row.writer >= 0 ? [[row.writer, position]] : (row.readers ?? []).map((reader) => [position, reader]);
  const height = win.rows.length * HEIGHT;
  edges.style.top = `${win.from * HEIGHT}px`;
  for (const [write, read] of links) {
    const to = end(win, read, row, height);
    edges.append(svg("path", { d: path(end(win, write, row, 0), to), class: "edge" }),
      svg("circle", { cx: to[0], cy: to[1], r: 4, class: "edge-end" }));
    for (const one of [write, read]) rowElement(one)?.classList.add("linked");
  }
  const text = saying(row);
  if (text) rowElement(position)?.querySelector(".info").append(el("span", "reads", text));
}

function saying(row) {
  if (row.writer === -1) return "reads the initial value";
  if (row.writer !== undefined) return `reads the write at ${row.writer}`;
  const others = row.more_readers ? " and other positions" : "";
  return row.readers?.length ? `is read at ${row.readers.join(", ")}${others}` : null;
}
