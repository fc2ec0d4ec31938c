// What a schedule shows: a pair that is side by side, or the deadlock that is the aim.
import { $, el, fill, button, many } from "./make.js";
import { later } from "./queue.js";
import { state, viewed, tag, operation, place, reason, short, waiting } from "./words.js";

export const events = { act: null, backTo: null };

let shown = null; // the pair that a click brought in sight, and the schedule that shows it

// Of several pairs the one that a click chose, or the aim, or the first.
export function best({ name, pairs }) {
  const chosen = shown && shown.name === name ? shown.pair : state.aim?.join();
  return pairs.find((pair) => pair.join() === chosen) ?? pairs[0];
}

function another(told) {
  const at = told.pairs.indexOf(best(told));
  shown = { name: told.name, pair: told.pairs[(at + 1) % told.pairs.length].join() };
  showPair(told);
}

const propose = (view, pair) => later(() => events.act("propose", { view: viewed(view), pair }));

function side(told, pair, event) {
  const one = told.next.find((other) => other.event === event);
  if (!one) return String(event);
  const source = told.source?.[one.location];
  // A read may be shown and yet be refused as next. There is no text if it would miss the pair's other half.
  const but = one.why && !pair.includes(one.why.about?.event) ? el("span", "but", "but ", reason(one.why, one)) : null;
  const made = el("span", "access", tag(one.thread), " ", el("span", "num", String(one.event)), " ", operation(one),
    place(one.location), source ? el("code", "", source) : null, but);
  made.dataset.place = one.location;
  return made;
}

// A request of a deadlock, and who holds the lock that it waits for.
function request(told, one) {
  const source = told.source?.[one.location];
  const made = el("span", "access", waiting(one), place(one.location), source ? el("code", "", source) : null);
  made.dataset.place = one.location;
  return made;
}

export function showPair(told) {
  const box = $("pair");
  const pairs = told?.pairs ?? [];
  const waits = told?.waits ?? [];
  box.hidden = !pairs.length && !waits.length && !told?.lost;
  if (waits.length) {
    fill(box, el("span", "pair-title", told.witness ? "Each waits for the other" : "Aim: deadlock"),
      el("span", "accesses", waits.map((one) => request(told, one))));
    return;
  }
  if (!pairs.length && told?.lost) {
    fill(box, ...outOfReach(told.lost));
    return;
  }
  if (!pairs.length) {
    fill(box);
    return;
  }
  const pair = best(told);
  const isAim = pair.join() === state.aim?.join();
  const title = told.witness ? "Both are next" : isAim ? "Aim: side by side" : "Side by side";
  fill(box, el("span", "pair-title", title),
    el("span", "accesses", side(told, pair, pair[0]), side(told, pair, pair[1])),
    el("span", "do", pairs.length > 1 ? more(told) : null,
      told.witness ? null : button("Propose", "p", () => propose(state.view, pair))));
}

// Why the aim can't be reached any more, and a step back to where it could be.
function outOfReach({ length, left, needed, early }) {
  const title = needed ? "The aim can't be reached any more" : "No way to the aim was found from here";
  const why = !needed ? null : needed.event === early.event ? [short(early), " is past it"]
    : ["it needs ", short(needed), ", which can't come after ", short(early)];
  const to = length ? `take back to row ${length - 1}` : "take back all";
  const back = button(to, "", () => later(() => events.backTo(length)));
  back.title = `Takes back ${many(left, "event")}`;
  return [el("span", "pair-title", title), el("span", "accesses", why && el("span", "", why)), el("span", "do", back)];
}

function more(told) {
  const made = button(`and ${many(told.pairs.length - 1, "pair")} more`, "", () => another(told), "plain dim");
  made.title = "Shows the next of them";
  return made;
}
