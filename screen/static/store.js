// What the tab or the browser keeps. If the browser allows neither, it is kept as long as the page is there.
const own = new Map();

export function keep(where, name, value) {
  own.set(name, value);
  try {
    window[where].setItem(name, value);
  } catch {
    // it is forbidden, or there is no room
  }
}

export function kept(where, name) {
  try {
    return window[where].getItem(name) ?? own.get(name) ?? null;
  } catch {
    return own.get(name) ?? null;
  }
}
