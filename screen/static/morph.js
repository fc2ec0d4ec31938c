// Draws anew and keeps each node that stays, so what is pressed, has the focus or is being read remains the same node.
import { takeAct } from "./press.js";

const signs = new WeakMap();

// A part of a list that stays untouched as long as what it is drawn from, its sign, is the same. The key is its id.
export const part = (key, sign, make) => ({ key, sign, make });

const isPart = (one) => typeof one.make === "function";
const idOf = (node) => (node.nodeType === Node.ELEMENT_NODE && node.id ? node.id : null);
const keyOf = (one) => (isPart(one) ? one.key : idOf(one));

// The page's policy lets no attribute set a style, but a property may.
function attributes(kept, made) {
  for (const { name, value } of made.attributes) {
    if (name === "style") {
      if (kept.style.cssText !== made.style.cssText) kept.style.cssText = made.style.cssText;
    } else if (kept.getAttribute(name) !== value) kept.setAttribute(name, value);
  }
  for (const { name } of [...kept.attributes]) if (!made.hasAttribute(name)) kept.removeAttribute(name);
}

// Makes a node as the other one is.
function become(kept, made) {
  if (kept.nodeType === Node.TEXT_NODE) {
    if (kept.data !== made.data) kept.data = made.data;
    return kept;
  }
  takeAct(kept, made);
  attributes(kept, made);
  put(kept, [...made.childNodes]);
  return kept;
}

// The node of a part: the old one as it is, or made anew in its form.
function nodeOf(one, old) {
  if (old && signs.get(old) === one.sign) return old;
  const made = one.make();
  made.id = one.key;
  const node = old ? become(old, made) : made;
  signs.set(node, one.sign);
  return node;
}

// The node that shows this one: an old one with its key, the one at its place if both have none, or it itself.
function shown(one, byKey, at) {
  const key = keyOf(one);
  const old = key === null ? null : byKey.get(key) ?? null;
  if (isPart(one)) return nodeOf(one, old);
  if (old) return old === one ? one : become(old, one);
  const isAlike = key === null && at && at.nodeName === one.nodeName && idOf(at) === null &&
    at.dataset?.does === one.dataset?.does; // a button stays as long as it does the same
  return isAlike ? become(at, one) : one;
}

// Takes out what has a key that is wanted no longer; gives the others by their keys.
function keyed(into, wanted) {
  const byKey = new Map();
  for (const old of [...into.children]) {
    if (!old.id) continue;
    if (wanted.has(old.id)) byKey.set(old.id, old);
    else old.remove();
  }
  return byKey;
}

// Replaces what is in an element by these nodes and parts.
export function put(into, list) {
  const byKey = keyed(into, new Set(list.map(keyOf)));
  let at = into.firstChild;
  for (const one of list) {
    const node = shown(one, byKey, at);
    if (node === at) at = at.nextSibling;
    else into.insertBefore(node, at);
  }
  while (at) {
    const next = at.nextSibling;
    at.remove();
    at = next;
  }
}
