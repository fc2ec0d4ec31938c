// Steps: one request each, one after another, and a line that says what came of it.
import { $, count, el, fill, many } from "./make.js";
import { ask } from "./net.js";
import { keep, kept } from "./store.js";
import { who, said, reason, isRefused, lastWords } from "./words.js";
import * as feed from "./feed.js";
import * as frontier from "./frontier.js";
import * as queue from "./queue.js";
import * as sheet from "./sheet.js";

// How long the program may take before the page says that it waits, in milliseconds.
const LONG = 400;

// The most entries that one request takes back, or names as those of this page.
const UNDONE = 4096;
const OWN = 4096;

let sayings = 0;
let own = []; // the entries that this page made
let runs = null; // of each step of this tab that made several entries: these, the newest first
let acting = 0;

// Whether a step of this page is under way: what the log has more may be of another tab of the same analyst.
export const isActing = () => acting > 0;

export function say(...parts) {
  fill($("said"), ...parts).dataset.n = ++sayings;
}

export const bad = (text) => el("span", "bad", text);

// Waits for an answer, and says so if it takes long.
export async function awaited(answer) {
  const waits = setTimeout(() => $("said").classList.add("waits"), LONG);
  const told = await answer;
  clearTimeout(waits);
  $("said").classList.remove("waits");
  return told;
}

// Makes a step and says what the program answered.
export async function act(what, given) {
  const began = performance.now();
  acting++;
  const told = await awaited(ask(what, given));
  acting--;
  note(what, told, given);
  if (told.gone) say(bad(`the program ended: ${lastWords(told.gone)}`));
  else if (told.mistake) say(bad(told.mistake));
  else {
    const took = performance.now() - began;
    const time = el("span", "dim num", ` ${took < 10 ? took.toFixed(1) : Math.round(took)} ms`);
    say(outcome(what, told, given), el("span", "gap"), el("code", "dim raw", told.answer), time);
  }
  return told;
}

// Makes a step that goes by positions. It is for the events that the page showed: what this page did since then is as
// it was meant, but what others did is not.
export async function actOn(shown, what, given) {
  const { log_length: length, since = own.filter((entry) => entry >= length) } = shown;
  const told = await act(what, { ...given, shown: { log_length: length, own: since } });
  if (told.changed) await Promise.all([sheet.refresh(false), frontier.load()]);
  return told;
}

const key = () => kept("sessionStorage", "key");

// What the tab kept of its steps before a reload. Another key is that of another screen, and maybe of another log.
function before() {
  const [of, made] = JSON.parse(kept("sessionStorage", "runs")) ?? [];
  return of === key() ? made : [];
}

function keepRuns(isLeft, more = []) {
  runs = [...(runs ?? before()), more].map((made) => made.filter(isLeft)).filter((made) => made.length > 1);
  keep("sessionStorage", "runs", JSON.stringify([key(), runs]));
}

function madeBy(told) {
  const one = /^(\d+): /.exec(told.answer);
  return told.made ?? told.entries ?? (one ? [Number(one[1])] : []);
}

// Keeps the entries of a step, and not those that an undo took back.
function note(what, told, given) {
  own = [...own, ...madeBy(told)].slice(-OWN);
  const gone = new Set(what === "undo" ? given.entries?.slice(0, told.undone ?? 0) : []);
  keepRuns((entry) => !gone.has(entry), what === "undo" ? [] : [...(told.entries ?? [])].reverse());
}

// A long run is many entries of the log, and one step of the analyst. What he did after it is taken back before it.
export async function undoLatest() {
  keepRuns((entry) => !feed.isDead(entry));
  const made = runs.at(-1);
  const isLatest = made && !(await feed.didAfter(made[0]));
  return act("undo", isLatest ? { entries: made.slice(0, UNDONE) } : {});
}

const tookBack = (undone) => `took back ${many(undone, "entry", "entries")}`;

function outcome(what, told, given) {
  if (told.changed) return changed(told.changed);
  if (told.rests) return rests(told.rests.entry, told.undone);
  if (told.undone && isRefused(told)) return [`${tookBack(told.undone)}; `, bad(said(told.answer))];
  if (told.undone > 1) return tookBack(told.undone);
  if (told.why) return refused(told, given.event);
  if (what === "run") return ran(told);
  if (what === "swap") return moved(told);
  return isRefused(told) ? bad(said(told.answer)) : said(told.answer);
}

// Of a group some may be taken back.
function rests(entry, undone) {
  feed.jump(entry.number);
  return [undone ? `${tookBack(undone)}; ` : null, bad("not taken back: "), "entry ",
    feed.link(entry.number), " of ", who(entry.client), " rests on it ",
    el("span", "dim", `(${entry.text.slice(0, 80)})`)];
}

// Another analyst changed what the step is about before the page showed it. Mostly the step was not made.
function changed({ entry, client, name, made, stays }) {
  const then = made === undefined ? null : el("span", "dim", stays ? ` · entry ${made} stays: others rest on it`
    : ` · entry ${made} was made and taken back`);
  return [bad(stays ? "done on other events: " : "not done: "), "entry ", feed.link(entry), " of ", who(client),
    ` changed ${name} meanwhile`, then];
}

// An event that may not come next.
function refused(told, event) {
  const one = frontier.current()?.next?.find((other) => other.event === event);
  return one ? [bad("refused: "), reason(told.why, one)] : bad(said(told.answer));
}

function ran(told) {
  const parts = [`added ${many(told.added, "event")}`];
  if (told.stop) parts.push(el("span", "dim", ` · stopped before ${told.stop.event}: `), reason(told.stop, told.stop));
  else if (isRefused(told)) parts.push(bad(` · ${said(told.answer)}`));
  if (told.more) parts.push(el("span", "dim", ` · ${count(told.more)} more to come: run again`));
  const [first, last] = [told.entries?.[0], told.entries?.at(-1)];
  if (first !== undefined) {
    parts.push(el("span", "dim", first === last ? ` · entry ${first}` : ` · entries ${first}–${last}`));
  }
  return parts;
}

function moved(told) {
  const why = told.stop ? told.stop.why : isRefused(told) && !told.moved ? said(told.answer) : null;
  return [told.moved ? `moved by ${told.moved}` : "not moved", why ? [" · ", bad(why)] : null];
}

queue.events.settled = frontier.settled;
queue.events.failed = (why) => {
  console.error(why);
  say(bad(String(why)));
};
