// The log as a feed: who did what, in groups; and what others did since this analyst last looked.
import { $, el, fill, button, linked, count, many } from "./make.js";
import { ask } from "./net.js";
import { part } from "./morph.js";
import { later } from "./queue.js";
import { state, tag, who, short, clientName } from "./words.js";
import { reveal } from "./frame.js";
import * as schedules from "./schedules.js";

// The latest entries that are shown at first, how many more a click shows, and the most that are shown and kept.
const SHOWN = 120;
const MORE = 200;
const MOST = 520;
const KEPT = 8_000;
// How many threads of a group are named.
const NAMED = 4;
// How many entries are looked at for later steps than a long one.
const FAR = 1_000;
// How many entries after one that is jumped to are shown, and this many before it.
const BEHIND = 40;
const BEFORE = 20;
// How long a look lasts before it counts, and how long news are gathered.
const LOOK = 700;
const GATHER = 150;
// The most lines of news.
const NEWS = 6;
export const events = { open: null, act: null, adopt: null, say: null, seen: null };

let hasBegun = false;
let flashed = null;
let shown = SHOWN;
let end = null; // after the last entry that is shown, if that is not the latest
let keeping = null;
let looking = null;

// What was news stays so if the connection comes back, and so does what was scrolled to.
export function begin(seen) {
  state.marked = Math.min((hasBegun ? state.marked : seen) ?? state.logLength, state.logLength);
  hasBegun = true;
  keep();
  know(Math.max(0, until() - shown), until()).then(render);
}

// How far this analyst has looked is kept by the server: a browser keeps nothing from one port to the next.
function keep(isNow = false) {
  clearTimeout(keeping);
  if (isNow) ask("seen", { log_length: state.logLength });
  else keeping = setTimeout(() => ask("seen", { log_length: state.logLength }), LOOK);
}
document.addEventListener("visibilitychange", () => (document.hidden ? keep(true) : render()));

export function caughtUp() {
  state.marked = state.logLength;
  keep();
  render();
  events.seen();
}

const isLive = (entry) => entry.undone_by === undefined && entry.kind !== "undo" && entry.kind !== "propose";
const addsOf = (entry) => (entry.kind === "add" || entry.run ? "add" : entry.kind === "back" ? "back" : null);

// Whether an entry goes on with what the group did: neighbours that one analyst added to one schedule are one line.
const goesOn = (group, entry) =>
  addsOf(entry) && group?.adds === addsOf(entry) && group.client === entry.client && group.name === entry.name &&
  group.dead === (entry.undone_by !== undefined) && group.entries.at(-1).number + 1 === entry.number &&
  entry.number !== state.marked;

function groups(list) {
  const made = [];
  for (const entry of list) {
    const size = entry.count ?? 1;
    const last = made.at(-1);
    if (goesOn(last, entry)) {
      last.entries.push(entry);
      last.events += size;
    } else {
      const dead = entry.undone_by !== undefined;
      made.push({ client: entry.client, name: entry.name, adds: addsOf(entry), entries: [entry], events: size, dead });
    }
  }
  return made;
}

function nameLink(text) {
  return linked(text, () => {
    if (state.rows.has(text)) events.open({ schedule: text });
    else events.say(`there is no schedule ${text} any more`);
  }, "sched-name");
}

function proposalLink(entry) {
  const made = linked(`p${entry.proposal}`, () => events.adopt(entry), "num");
  made.title = "Adopt it";
  return made;
}

function added(group) {
  const entry = group.entries[0];
  if (group.adds === "back") {
    return [nameLink(entry.name), ` − ${group.events === 1 ? "its last event" : many(group.events, "event")}`];
  }
  if (group.events === 1) return [nameLink(entry.name), " + ", entry.event ? short(entry.event) : entry.text];
  const threads = [...new Set(group.entries.flatMap((one) => one.threads ?? one.event.thread))];
  return [nameLink(entry.name), ` + ${many(group.events, "event")} `,
    threads.slice(0, NAMED).map((thread) => [tag(thread), " "]),
    threads.length > NAMED ? el("span", "dim", `and ${count(threads.length - NAMED)} more`) : null];
}

const SENTENCES = {
  new: (entry) => ["made ", nameLink(entry.name)],
  swap: (entry) => [nameLink(entry.name), ` swapped ${entry.at} and ${entry.at + 1}`],
  branch: (entry) => ["branched ", nameLink(entry.name), " from ", nameLink(entry.source),
    el("span", "dim", ` at ${entry.at}`)],
  drop: (entry) => ["dropped ", nameLink(entry.name)],
  adopt: (entry) => [nameLink(entry.name), ` took proposal p${entry.at}`],
  undo: (entry) => ["took back ", link(entry.of)],
  propose: (entry) => ["proposed ", proposalLink(entry), " for ", el("span", "num", entry.pair.join("–")),
    el("span", "dim", ` ${many(entry.count, "event")}`)],
  batch: (entry) => {
    if (entry.took !== undefined) return ["made ", nameLink(entry.name), ` from proposal p${entry.took}`];
    const did = entry.swaps ? `moved an event by ${entry.count}` : `batch of ${many(entry.count, "command")}`;
    return [nameLink(entry.name), " ", did];
  },
};

const sentence = (group) => (group.adds ? added(group) : SENTENCES[group.entries[0].kind](group.entries[0]));

export function link(number) {
  return linked(String(number), () => {
    reveal("side");
    jump(number);
  }, "num");
}

// Shows an entry and lets it flash.
export async function jump(number) {
  flashed = number;
  const first = Math.max(0, number - BEFORE);
  if (state.logLength - first > MOST) [end, shown] = [number + BEHIND, BEHIND + BEFORE];
  else [end, shown] = [null, Math.max(SHOWN, state.logLength - first)];
  await know(first, until());
  render();
  $("feed").querySelector(".flash")?.scrollIntoView({ block: "center" });
}

function away() {
  if (state.marked >= state.logLength) {
    $("away").hidden = true;
    return;
  }
  looking ??= setTimeout(async () => {
    const told = await ask("since", { from: state.marked });
    looking = null;
    showNews(state.marked >= state.logLength ? [] : told.news ?? []);
  }, GATHER);
}

function newsLine(one) {
  const { counts } = one;
  const did = [
    counts.new || counts.branch ? "made" : null, counts.adopt ? "took a proposal" : null,
    counts.add ? `+${count(counts.add)}` : null, counts.back ? `−${count(counts.back)}` : null,
    counts.swap ? many(counts.swap, "swap") : null,
    counts.undo ? `took back ${many(counts.undo, "entry", "entries")}` : null,
    counts.propose ? many(counts.propose, "proposal") : null, counts.drop ? "dropped" : null,
  ];
  const made = el("div", "away-line", who(one.client), " ", one.name ? el("span", "sched-name", one.name) : null, " ",
    el("span", "news", did.filter(Boolean).join(", ")));
  made.title = one.name ?? "";
  return made;
}

function showNews(news) {
  $("away").hidden = !news.length;
  const rest = news.length > NEWS ? el("div", "dim", `and ${news.length - NEWS} more`) : null;
  const head = el("div", "away-head", el("span", "", "Since you last looked"), el("span", "gap"),
    button("Seen", "s", caughtUp, "plain"));
  fill($("away"), head, news.slice(0, NEWS).map(newsLine), rest);
}

function groupLine(group) {
  const [first, last] = [group.entries[0].number, group.entries.at(-1).number];
  const isFlashed = flashed !== null && first <= flashed && flashed <= last;
  const isFresh = first >= state.marked && group.client !== state.client;
  const taken = group.dead && group.entries.map((entry) => entry.undone_by);
  const sign = [last, taken, isFlashed, isFresh, clientName(group.client)];
  return part(`entry-${first}`, JSON.stringify(sign), () => drawn(group, first, last, isFlashed, isFresh));
}

function drawn(group, first, last, isFlashed, isFresh) {
  const isMine = group.client === state.client && group.entries.every(isLive);
  const entries = group.entries.map((entry) => entry.number).reverse();
  const classes = `${group.dead ? " dead" : ""}${isFlashed ? " flash" : ""}${isFresh ? " fresh" : ""}`;
  const numbers = first === last ? String(first) : `${first}–${last}`;
  const undo = isMine ? button("undo", "", () => later(() => events.act("undo", { entries })), "quiet") : null;
  undo?.setAttribute("aria-label", `undo ${numbers}`);
  const made = el("div", `entry${classes}`, el("span", "num dim at", numbers),
    who(group.client), el("span", "did", sentence(group)), undo);
  made.setAttribute("role", "listitem");
  const taken = group.dead ? `\ntaken back by entry ${group.entries[0].undone_by}` : "";
  made.title = entries.length === 1 ? group.entries[0].text + taken : many(entries.length, "entry", "entries");
  return made;
}

const until = () => Math.min(end ?? state.logLength, state.logLength);

// The entries that are shown, in rising order.
function inSight() {
  const found = [];
  for (let at = until() - 1; at >= 0 && found.length < shown && state.entries.has(at); at--) {
    found.push(state.entries.get(at));
  }
  return found.reverse();
}

export function render() {
  schedules.render();
  away();
  $("feed-count").textContent = state.logLength ? count(state.logLength) : "";
  const list = inSight();
  const made = [];
  let isDivided = state.marked >= state.logLength || state.marked === 0;
  for (const group of groups(list).reverse()) {
    if (!isDivided && group.entries[0].number < state.marked && made.length) {
      made.push(part("divide", "", () => el("div", "divide", "seen")));
      isDivided = true;
    }
    made.push(groupLine(group));
  }
  if (end !== null && end < state.logLength) {
    made.unshift(part("newest", "", () => button("newest", "", newest, "plain")));
  }
  if (list.length && list[0].number > 0) made.push(part("older", "", () => button("older", "", older, "plain")));
  fill($("feed"), made.length ? made : el("p", "empty", "Nothing has been done yet."));
}

// Fetches the entries from one to another that are not known.
async function know(first, last) {
  for (let at = first; at < last; at++) {
    if (state.entries.has(at)) continue;
    const told = await ask("feed", { from: at, count: Math.min(MORE, last - at) });
    if (!told.entries?.length) return;
    for (const entry of told.entries) state.entries.set(entry.number, entry);
  }
}

// Whether it is known that an entry was taken back.
export const isDead = (number) => state.entries.get(number)?.undone_by !== undefined;

// Whether this analyst made a live entry after another one, as far back as is looked for.
export async function didAfter(number) {
  const first = Math.max(number + 1, state.logLength - FAR);
  for (let at = state.logLength - 1; at >= first; at--) {
    if (!state.entries.has(at)) await know(Math.max(first, at + 1 - MORE), at + 1);
    const entry = state.entries.get(at);
    if (entry?.client === state.client && isLive(entry)) return true;
  }
  return false;
}

async function older() {
  if (shown + MORE <= MOST) shown += MORE;
  else end = Math.max(shown, until() - MORE);
  await know(Math.max(0, until() - shown), until());
  render();
}

function newest() {
  [end, shown] = [null, SHOWN];
  render();
}

// Entries that nobody looks at are left, but no proposals: they are listed.
function leave() {
  for (const [number, entry] of state.entries) {
    if (state.entries.size <= KEPT) return;
    if (entry.kind !== "propose") state.entries.delete(number);
  }
}

// Takes in what the log has more; render draws it. Too much may have come for one message: then what is known may be
// taken back by now, and the page requests what is shown.
export function take(told) {
  const isWhole = told.log_length - told.entries.length <= state.logLength;
  state.logLength = told.log_length;
  if (!isWhole) state.entries = new Map((told.proposals ?? []).map((entry) => [entry.number, entry]));
  for (const entry of told.entries) {
    state.entries.set(entry.number, entry);
    const undone = entry.kind === "undo" ? state.entries.get(entry.of) : null;
    if (undone) undone.undone_by = entry.number;
  }
  for (const [name, row] of Object.entries(told.rows)) {
    if (row) state.rows.set(name, row);
    else state.rows.delete(name);
  }
  leave();
  if (!isWhole) know(Math.max(0, until() - shown), until()).then(render);
  const isMine = told.entries.every((entry) => entry.client === state.client);
  if (isMine && state.marked >= told.log_length - told.entries.length) state.marked = told.log_length;
  if (!document.hidden) keep();
}
