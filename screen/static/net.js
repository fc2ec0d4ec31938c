// The one connection. The ticket of the link is spent for a key, which stays in this tab. Each request, answer and push
// is listed with its keys in screen_app/messages.py.
import { keep, kept } from "./store.js";

const REFUSED = 4403;
const AGAIN = 1000;

let socket = null;
let number = 0;
let ticket = location.hash.slice(1); // until it is spent
const waiting = new Map();
const listeners = new Map();

export function on(what, act) {
  listeners.set(what, act);
}

const tell = (what, told) => listeners.get(what)?.(told);

if (ticket) history.replaceState(null, "", "/");

async function key() {
  if (ticket) {
    const answer = await fetch("/enter", { method: "POST", body: ticket });
    ticket = "";
    if (answer.ok) keep("sessionStorage", "key", await answer.text());
  }
  return kept("sessionStorage", "key");
}

// A new link changes only the fragment, so reload. Its ticket is for the page that is loaded then: if this page spent
// it, that one would have none.
addEventListener("hashchange", () => location.hash.length > 1 && location.reload());

function tryAgain() {
  tell("closed", "screen does not answer; trying again");
  setTimeout(connect, AGAIN);
}

export async function connect() {
  let mine = null;
  try {
    mine = await key();
  } catch {
    tryAgain();
    return;
  }
  if (!mine) {
    tell("closed", "This link was used already. Press Enter where screen runs to get another one.");
    return;
  }
  socket = new WebSocket(`ws://${location.host}/ws`);
  socket.onopen = () => {
    socket.send(mine);
    tell("open");
  };
  socket.onmessage = (message) => take(JSON.parse(message.data));
  socket.onclose = closed;
}

function take(told) {
  if (told.push) {
    tell(told.push, told);
    return;
  }
  const done = waiting.get(told.id);
  waiting.delete(told.id);
  done?.(told);
}

function closed(event) {
  for (const done of waiting.values()) done({ mistake: "the connection ended", lost: true });
  waiting.clear();
  if (event.code === REFUSED) {
    keep("sessionStorage", "key", "");
    tell("closed", "This link is no longer good. Press Enter where screen runs to get another one.");
    return;
  }
  tryAgain();
}

export const isOpen = () => socket?.readyState === WebSocket.OPEN;

// Whether a request has no answer yet.
export const isWaiting = () => waiting.size > 0;

// An answer that is `lost` says nothing of what was asked.
export function ask(what, given = {}) {
  return new Promise((done) => {
    if (!isOpen()) {
      done({ mistake: "not connected", lost: true });
      return;
    }
    const id = ++number;
    waiting.set(id, done);
    socket.send(JSON.stringify({ id, do: what, ...given }));
  });
}
