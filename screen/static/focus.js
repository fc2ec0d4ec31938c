// Where the focus goes if what has it goes away: to the list that it was in, or to a pane that is shown.
const PANES = ["next-list", "stage", "row-list", "race-list"];

let heir = null; // the pane that has the focus for that reason

// Whether a pane has the focus only because what had it went away.
export const isInherited = () => heir !== null && heir === document.activeElement;

function inherit(box) {
  const list = box.closest("[tabindex]");
  const panes = PANES.map((id) => document.getElementById(id));
  heir = list ? null : panes.find((pane) => pane.offsetParent) ?? null;
  (list ?? heir)?.focus();
}

// Draws or hides what is in a box, and keeps the focus.
export function keepingFocus(box, draw) {
  const at = document.activeElement;
  const isIn = box !== at && box.contains(at);
  draw();
  if (!isIn || (document.activeElement === at && !box.hidden)) return;
  if (at.isConnected && !box.hidden) at.focus(); // it was moved
  else inherit(box);
}
