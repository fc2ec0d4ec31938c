// Elements. Text is set as text and nothing else: no string of the trace is ever read as markup.
import { does } from "./press.js";
import { put } from "./morph.js";
import { keepingFocus } from "./focus.js";

export const $ = (id) => document.getElementById(id);

export function el(tag, classes = "", ...inner) {
  const made = document.createElement(tag);
  if (classes) made.className = classes;
  add(made, inner);
  return made;
}

function add(into, inner) {
  for (const one of inner) {
    if (one === null || one === undefined || one === false) continue;
    if (Array.isArray(one)) add(into, one);
    else into.append(one);
  }
}

// Draws an element's inside anew; nodes that stay are kept, and so is the focus.
export function fill(into, ...inner) {
  const there = inner.flat(Infinity).filter((one) => one !== null && one !== undefined && one !== false);
  const nodes = there.map((one) => (typeof one === "object" ? one : document.createTextNode(one)));
  keepingFocus(into, () => put(into, nodes));
  return into;
}

// The same with new nodes alone.
export function replace(into, ...inner) {
  into.replaceChildren();
  add(into, inner);
}

export function button(text, key, act, classes = "") {
  const made = el("button", classes, text);
  made.type = "button";
  made.dataset.does = key || text;
  if (key) {
    const sign = el("kbd", "", key);
    sign.setAttribute("aria-hidden", "true");
    made.append(" ", sign);
  }
  return does(made, act);
}

// A link inside a text. It leads to a part of the page, so it has no address, and the keyboard must be let to it.
export function linked(text, act, classes) {
  const made = el("a", classes, text);
  made.tabIndex = 0;
  made.setAttribute("role", "link");
  return does(made, act);
}

export function svg(tag, given) {
  const made = document.createElementNS("http://www.w3.org/2000/svg", tag);
  for (const [name, value] of Object.entries(given)) made.setAttribute(name, value);
  return made;
}

// An option of a list: what a screen reader says of it, and whether it is the chosen one, where the list's focus is.
export function option(made, label, isChosen) {
  made.setAttribute("role", "option");
  made.setAttribute("aria-label", label);
  made.setAttribute("aria-selected", isChosen);
  return made;
}

// Names the chosen option to a screen reader.
export function nameChosen(list) {
  const chosen = list.querySelector("[aria-selected=true]");
  if (chosen) list.setAttribute("aria-activedescendant", chosen.id);
  else list.removeAttribute("aria-activedescendant");
}

const NUMBERS = new Intl.NumberFormat("en");
export const count = (number) => NUMBERS.format(number);
export const many = (number, one, more = `${one}s`) => `${count(number)} ${number === 1 ? one : more}`;
export const hue = (thread) => `h${thread % 8}`;
