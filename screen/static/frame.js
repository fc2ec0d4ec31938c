// The frame: panes, light and dark, and the splitter between the lanes and what may come next.
import { $ } from "./make.js";
import { keep, kept } from "./store.js";

export const PANES = ["race-list", "deadlock-list", "stage", "next-list", "row-list", "feed"];
export const paneOf = (element) => PANES.find((id) => $(id).contains(element));

export function pane(name) {
  $("main").dataset.pane = name;
  for (const tab of $("tabs").children) tab.setAttribute("aria-current", tab.dataset.pane === name);
}

// Shows a part that a narrow window hides.
export function reveal(name) {
  if (!$(name).offsetHeight) pane(name);
}

// The pane that has the focus. If it is outside of the panes, it is before the first pane after it.
function placeOf(element, by) {
  const at = PANES.indexOf(paneOf(element));
  if (at >= 0) return at;
  const isBehind = (id) => element.compareDocumentPosition($(id)) & Node.DOCUMENT_POSITION_FOLLOWING;
  const next = Math.max(0, PANES.findIndex(isBehind));
  return by > 0 ? next - 1 : next;
}

export function nextPane(by) {
  const at = placeOf(document.activeElement, by);
  for (let tries = 1; tries <= PANES.length; tries++) {
    const box = $(PANES[(at + by * tries + PANES.length * 2) % PANES.length]);
    reveal(box.closest("section").id);
    if (box.offsetParent) {
      box.focus();
      return;
    }
  }
}

for (const tab of $("tabs").children) tab.addEventListener("click", () => pane(tab.dataset.pane));

// Light and dark.
const root = document.documentElement;
const theme = kept("localStorage", "theme");
if (theme) root.dataset.theme = theme;
$("theme").addEventListener("click", () => {
  const isDark = matchMedia("(prefers-color-scheme: dark)").matches;
  root.dataset.theme = (root.dataset.theme ?? (isDark ? "dark" : "light")) === "dark" ? "light" : "dark";
  keep("localStorage", "theme", root.dataset.theme);
});

// The splitter. The lanes keep LANES pixels, what may come next keeps NEXT.
const LANES = 150;
const NEXT = 64;
const STEP = 24;
const splitter = $("splitter");
const next = $("next");

function most() {
  return Math.max(NEXT, $("stage-box").clientHeight + next.offsetHeight - LANES);
}

function setHeight(height) {
  const made = Math.round(Math.max(NEXT, Math.min(most(), height)));
  root.style.setProperty("--next-height", `${made}px`);
  next.classList.add("sized");
}

new ResizeObserver(() => {
  if (!next.offsetHeight) return;
  splitter.setAttribute("aria-valuemax", String(most()));
  splitter.setAttribute("aria-valuenow", String(next.offsetHeight));
}).observe(next);

splitter.addEventListener("pointerdown", (event) => {
  const [from, height] = [event.clientY, next.offsetHeight];
  splitter.setPointerCapture(event.pointerId);
  splitter.onpointermove = (one) => setHeight(height + from - one.clientY);
  splitter.onpointerup = () => {
    splitter.onpointermove = null;
  };
  event.preventDefault();
  splitter.focus();
});
splitter.addEventListener("dblclick", () => next.classList.remove("sized"));
splitter.addEventListener("keydown", (event) => {
  const by = { ArrowUp: STEP, ArrowDown: -STEP }[event.key];
  if (!by) return;
  event.preventDefault();
  event.stopPropagation();
  setHeight(next.offsetHeight + by);
});

pane("centre");
