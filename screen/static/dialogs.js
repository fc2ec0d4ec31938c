// Dialogs: a field for a name, all keys, and a link for another browser.
import { $, el, replace, button } from "./make.js";
import { ask } from "./net.js";

// The name that was given, or null.
export function asked(label, value, note = "") {
  const dialog = $("ask");
  if (dialog.open) return Promise.resolve(null);
  return new Promise((done) => {
    const field = $("ask-input");
    $("ask-label").textContent = label;
    $("ask-note").textContent = note;
    field.value = value;
    $("ask-no").onclick = () => dialog.close();
    // What is typed next comes after what the name is for, so that begins at once.
    dialog.querySelector("form").onsubmit = () => done(field.value.trim() || null);
    // If it is open again by then, this is the end of the question before.
    dialog.onclose = () => {
      if (!dialog.open) done(null);
    };
    dialog.showModal();
    field.select();
  });
}

// Takes a key that was typed before the question was there.
export function answer(key) {
  const [dialog, field] = [$("ask"), $("ask-input")];
  const [from, to] = [field.selectionStart, field.selectionEnd];
  if (key === "Enter") dialog.querySelector("form").requestSubmit();
  else if (key === "Escape") dialog.close();
  else if (key === "Backspace") field.setRangeText("", from === to ? Math.max(0, from - 1) : from, to, "end");
  else if (key.length === 1) field.setRangeText(key, from, to, "end");
}

function group([title, lines]) {
  return el("div", "", el("h3", "", title),
    lines.map(([key, does]) => el("div", "key", el("kbd", "", key), el("span", "", does))));
}

function show(title, ...inner) {
  const box = $("help");
  const close = el("div", "row", el("span", "gap"), button("Close", "Esc", () => box.close()));
  replace(box, el("h2", "", title), inner, close);
  box.setAttribute("aria-label", title);
  box.showModal();
  box.scrollTop = 0; // the button that has the focus may be below what is in sight
}

// `keys` is the table of keys.js.
export const showKeys = (keys) => show("Keys", el("div", "keys", keys.map(group)));

// Each link opens once, so another browser gets a new one.
export async function showLink() {
  const told = await ask("link");
  if (!told.link) return told;
  const field = el("input", "link");
  field.readOnly = true;
  field.value = told.link;
  field.setAttribute("aria-label", "Link");
  show("A link for another browser on this machine",
    el("p", "dim", "It opens once. Whoever has it works as you do. Another analyst runs screen with another number."),
    field);
  field.select();
  return told;
}
