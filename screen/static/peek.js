// The source round a place, on a click.
import { $, el, fill } from "./make.js";
import { ask } from "./net.js";
import { state } from "./words.js";
import { say } from "./act.js";

const AROUND = 5;
const peek = $("peek");

export const hidePeek = () => {
  peek.hidden = true;
};

function line(told, [number, text]) {
  return el("div", `peek-line${number === told.line ? " here" : ""}`, el("span", "num dim", String(number)),
    el("code", "", text));
}

function stand(box) {
  peek.style.left = "0"; // so it is as wide as its lines, wherever it stood before
  peek.style.left = `${Math.max(8, Math.min(box.left, innerWidth - peek.offsetWidth - 8))}px`;
  const isRoom = box.bottom + peek.offsetHeight + 8 < innerHeight;
  peek.style.top = `${isRoom ? box.bottom + 4 : Math.max(8, box.top - peek.offsetHeight - 4)}px`;
}

// Shows the source round the place that a node has, beside it.
async function show(node, beside) {
  const { place } = node.dataset;
  const told = await ask("source", { place, around: AROUND });
  if (!told.lines) {
    hidePeek();
    say(told.mistake ?? `the source folder has no line for ${place}`);
    return;
  }
  fill(peek, el("div", "peek-head", `${told.file}:${told.line}`), told.lines.map((one) => line(told, one)));
  peek.hidden = false;
  stand(beside.getBoundingClientRect());
}

// The same by a key: of the event that the cursor is on, or of the next event of the chosen thread.
export function viewSource() {
  if (!state.source) return say("no source: start screen with --source DIR");
  const isStage = document.activeElement?.id === "stage";
  const [row, next] = ["#stage .row.on:not(.block)", "#next-list .next.on"].map((one) => document.querySelector(one));
  const node = isStage ? row : next ?? row;
  return node ? show(node, node.querySelector(".what") ?? node) : say("choose an event first");
}

document.addEventListener("click", (event) => {
  const at = event.target.closest("#stage .row:not(.block) .place, #next .code .place, #pair .place");
  if (at && state.source) show(at.closest("[data-place]"), at);
  else if (!event.target.closest("#peek")) hidePeek();
});
