// Lists of which only what is in sight is drawn, and some on both sides. All lines of such a list have one height.
import { el } from "./make.js";

// How many lines beyond the sight are drawn on both sides.
const SIDES = 6;

// The element of the lines; it is as high as all lines.
export function space(id) {
  const made = el("div", "space");
  made.id = id;
  made.setAttribute("role", "presentation");
  return made;
}

// The first line that is drawn, and that after the last.
export function inSight(list, height) {
  const top = Math.floor(list.scrollTop / height) - SIDES;
  return [Math.max(0, top), top + Math.ceil(list.clientHeight / height) + 2 * SIDES + 1];
}

// Scrolls no farther than is needed to see a line.
export function reveal(list, height, at) {
  const top = at * height;
  if (top < list.scrollTop) list.scrollTop = top;
  else if (top + height > list.scrollTop + list.clientHeight) list.scrollTop = top + height - list.clientHeight;
}

// Draws again if other lines come in sight.
export function watch(list, draw) {
  list.addEventListener("scroll", draw, { passive: true });
  new ResizeObserver(draw).observe(list);
}
