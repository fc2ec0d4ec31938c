// The whole of a long schedule at its side.
import { $, el, fill, hue } from "./make.js";
import { part } from "./morph.js";

const map = $("map");
const stage = $("stage");

function stripe(from, to, number, thread) {
  const made = el("i", hue(thread));
  made.style.top = `${(100 * from) / number}%`;
  made.style.height = `${(100 * (to - from)) / number}%`;
  return made;
}

export function draw(win, visible) {
  map.hidden = !win?.map || win.total < 4 * visible;
  if (map.hidden) return;
  const parts = [];
  const number = win.map.length;
  for (let at = 0; at < number; ) {
    let end = at;
    while (end < number && win.map[end] === win.map[at]) end++;
    const [from, to, thread] = [at, end, win.map[at]];
    parts.push(part(`map-${from}`, `${thread} ${to} ${number}`, () => stripe(from, to, number, thread)));
    at = end;
  }
  const aimed = (win.aimed ?? []).map((row) => {
    const line = el("u");
    line.style.top = `${(100 * row) / win.total}%`;
    return line;
  });
  fill(map, parts, aimed, el("b"));
}

// The part that is in sight.
export function mark() {
  const box = map.lastElementChild;
  if (map.hidden || !box) return;
  box.style.top = `${(100 * stage.scrollTop) / stage.scrollHeight}%`;
  box.style.height = `${(100 * stage.clientHeight) / stage.scrollHeight}%`;
}

function go(event) {
  const box = map.getBoundingClientRect();
  stage.scrollTop = ((event.clientY - box.top) / box.height) * stage.scrollHeight - stage.clientHeight / 2;
}

map.addEventListener("pointerdown", (event) => {
  go(event);
  map.setPointerCapture(event.pointerId);
  map.onpointermove = go;
  map.onpointerup = () => {
    map.onpointermove = null;
  };
});
