// What may come next: one line a thread, and the program's own refusal of what may not.
import { $, el, fill, button, count, many, option, nameChosen } from "./make.js";
import { part } from "./morph.js";
import { does } from "./press.js";
import { again } from "./again.js";
import { later, isBusy } from "./queue.js";
import { ask } from "./net.js";
import { isInherited, keepingFocus } from "./focus.js";
import { state, tag, operation, place, reason, help, lastWords, threadName, threadShort, spoken } from "./words.js";
import { showPair } from "./pair.js";

// With more threads than this there is a filter, and those that the aim needs come first.
const FEW = 12;
// How many events to come are shown.
const AHEAD = 40;
const list = $("next-list");
const filter = $("next-filter");
export const events = { act: null, say: null };

let told = null;
let chosen = null;
let shown = null; // which was scrolled to, and whether it might come next
let open = null;
let asked = 0;
let pending = Promise.resolve();

export const current = () => told;
const name = () => state.view?.schedule;
const fetchAgain = again(fetchNext, name);
export const load = () => (pending = fetchAgain());
const chosenOne = () => told?.next.find((one) => one.thread === chosen) ?? null;
// The list, unless it is that of the schedule that was open before.
const here = () => (told && told.name === name() ? told : null);
const step = (what, given) => (here() ? events.act(what, { name: name(), ...given }) : null);

// Waits for the list that was requested last, and not for those about what others do from now on.
export const settled = () => pending;

async function fetchNext() {
  const mine = ++asked;
  const schedule = name();
  if (!schedule) {
    told = chosen = open = null;
    render();
    return;
  }
  const got = await ask("frontier", { name: schedule, aim: state.aim });
  if (mine !== asked || schedule !== name() || got.lost) return;
  if (got.gone) {
    events.say(`the program ended: ${lastWords(got.gone)}`); // the list stays, so a key starts it again
    return;
  }
  const before = here()?.ahead; // it stays until the new one is there, with what is typed below it
  told = got.mistake ? null : got;
  if (told) told.ahead = before;
  if (told && !chosenOne()) { // it is at its end, and its list is folded
    chosen = (told.next.find((one) => !one.why) ?? told.next[0])?.thread ?? null;
    open = null;
  }
  if (open !== null) await more();
  render();
  lookAhead(mine).catch((why) => events.say(String(why)));
}

const isReached = () => told.waits.length > 0 || told.pairs.some((pair) => pair.join() === state.aim?.join());

// Whether the aim can still be reached from here. The list is drawn before, so no key waits for it.
async function lookAhead(mine) {
  if (!told?.witnessed || isReached()) return;
  const got = await ask("reach", { name: told.name, aim: state.aim });
  if (mine !== asked || !told || got.mistake || got.gone) return;
  told.lost = got.lost ?? null;
  showPair(told);
}

// Of a witness, whose two accesses or requests come next.
export function show(pair) {
  asked++;
  const next = pair.accesses.map((one) => ({ ...one, left: 0, fixed: true }));
  const waits = pair.waits ?? [];
  told = { source: pair.source, next, pairs: pair.waits ? [] : [pair.pair], waits, witness: true, ended: 0 };
  chosen = open = null;
  render();
}

function sorted() {
  if (told.next.length <= FEW) return told.next;
  const rank = (one) => (one.aim >= 0 ? 0 : one.why ? 2 : 1);
  const text = filter.value.toLowerCase();
  const hay = (one) => `${threadName(one.thread)} ${one.name} ${one.location}`.toLowerCase();
  const kept = told.next.filter((one) => hay(one).includes(text));
  return kept.sort((one, other) => rank(one) - rank(other) || one.thread - other.thread);
}

// While the list is hidden another pane has the focus that it had.
function showList(isShown) {
  const box = $("next");
  if (box.hidden === !isShown) return;
  keepingFocus(box, () => {
    box.hidden = !isShown;
  });
  if (isShown && isInherited()) list.focus();
}

function render() {
  showPair(told);
  showList(Boolean(told && !told.witness));
  if (!told || told.witness) return;
  const free = told.next.filter((one) => !one.why).length;
  const ended = told.ended ? `, ${told.ended} at an end` : "";
  $("next-count").textContent = `${free} of ${many(told.next.length, "thread")} may go on${ended}`;
  filter.hidden = told.next.length <= FEW;
  const lit = new Set([...told.pairs.flat(), ...told.waits.map((one) => one.event)]);
  const longest = Math.max(0, ...told.next.map((one) => threadName(one.thread).length));
  list.style.setProperty("--thread", `${Math.max(4, Math.min(16, longest)) + 1}ch`);
  list.dataset.length = told.length;
  const empty = told.next.length ? "Nothing matches." : "This schedule has all events of the trace.";
  const lines = sorted().map((one) => line(one, lit));
  fill(list, lines.length ? lines : el("p", "empty", empty));
  nameChosen(list);
  const sign = `${chosen} ${Boolean(chosenOne()?.why)}`; // a thread that has to wait is elsewhere in a long list
  if (shown !== sign) list.querySelector(".on")?.scrollIntoView({ block: "nearest" });
  shown = sign;
}

// How far a thread is from what the aim needs of it.
function distance(one) {
  if (one.aim > 0) {
    const text = `${count(one.aim)} ${one.own ? "to aim" : "needed"}`;
    return el("span", `aim-left${one.own ? "" : " dim"}`, text);
  }
  if (!one.own) return null;
  return one.aim === 0 ? el("span", "aim-left here", "aim") : el("span", "aim-left dim", "past the aim");
}

// What would help a thread that has to wait. In a deadlock nothing does.
const helpOf = (one) => (told.waits.some((other) => other.event === one.event) ? null : help(one.why));

function buttons(one) {
  if (one.thread !== chosen) return null;
  const does = helpOf(one);
  if (one.why) return does ? button(does.text, "f", () => later(() => follow(one))) : null;
  return [button("add", "↵", () => addLater(one)), button("run", "r", () => later(() => run(one))),
    one.to === undefined ? null : button("to aim", "t", () => later(() => toAim(one)))];
}

// What is pressed while steps are under way is meant to come after them.
function addLater(one) {
  const isAhead = isBusy();
  later(() => add(isAhead ? here()?.next.find((other) => other.thread === one.thread) : one));
}

function line(one, lit) {
  const about = [one, one.thread === chosen, open === one.thread, lit.has(one.event), told.source?.[one.location]];
  const made = part(`next-${one.thread}`, JSON.stringify(about), () => drawn(one, lit));
  if (open !== one.thread || told.ahead?.thread !== one.thread) return made;
  return [made, part(`ahead-${one.thread}`, JSON.stringify([told.ahead, state.aim]), () => ahead(one))];
}

function drawn(one, lit) {
  const source = told.source?.[one.location];
  const why = one.why ? reason(one.why, one) : null;
  const far = distance(one);
  const more = button(open === one.thread ? "▾" : `${count(one.left)} ›`, "", () => {
    choose(one.thread);
    later(unfold);
  }, "more plain");
  more.dataset.does = "more";
  const left = `${many(one.left, "event")} of ${threadName(one.thread)} to come`;
  more.title = `${left} (→)`;
  more.setAttribute("aria-label", left);
  more.setAttribute("aria-expanded", open === one.thread);
  const what = el("span", "what", el("span", "num", String(one.event)), " ", operation(one));
  what.title = `${one.operation} ${one.name}`;
  const classes = [why ? "no" : "yes", one.thread === chosen ? "on" : "", lit.has(one.event) ? "lit" : ""];
  const made = el("div", ["next", ...classes.filter(Boolean)].join(" "),
    el("kbd", "digit", one.thread < 9 ? String(one.thread + 1) : ""), tag(one.thread),
    el("span", "dot", why ? "○" : "●"), what,
    why ?? el("span", "code", place(one.location), source ? el("code", "", source) : null),
    el("span", "do", far, buttons(one), more));
  made.dataset.t = one.thread;
  made.dataset.place = one.location;
  does(made, ({ target }) => {
    if (state.source && target.closest(".place")) return;
    choose(one.thread);
    if (!one.why) addLater(one);
  });
  const said = [spoken(one), why ? `may not come next: ${why.textContent}` : "may come next", far?.textContent];
  return option(made, said.filter(Boolean).join(", "), one.thread === chosen);
}

// What comes of a thread; a click runs to there.
function ahead(one) {
  const rows = told.ahead.events.map((event, at) => {
    const made = el("button", `coming${state.aim?.includes(event.event) ? " aimed" : ""}`,
      el("span", "num", String(event.event)), el("span", "what", operation(event)), place(event.location, true),
      el("code", "", told.ahead.source?.[event.location] ?? ""),
      el("span", "dim until", at ? `run to here (${at + 1})` : "add"));
    return does(made, () => later(() => step("run", { until: event.event })));
  });
  const left = told.ahead.left - rows.length;
  return el("div", "ahead", rows, left > 0 ? untilField(one, told.ahead.left) : null);
}

function untilField(one, left) {
  const field = el("input", "until-event");
  field.placeholder = `event of ${threadShort(one.thread)}, up to ${count(left)} more`;
  field.setAttribute("aria-label", "Run to event");
  field.addEventListener("keydown", (key) => {
    if (key.key !== "Enter") return;
    key.stopPropagation();
    const until = Number(field.value.replaceAll(",", ""));
    if (field.value.trim() && Number.isInteger(until)) later(() => step("run", { until, thread: one.thread }));
    else events.say("type the number of an event, as in the list");
  });
  return field;
}

async function more() {
  const thread = open;
  const got = await ask("ahead", { name: name(), thread, from: 0, count: AHEAD });
  if (told) told.ahead = got.mistake ? null : { ...got, thread };
}

export async function unfold() {
  if (!here() || told.witness) return;
  open = open === chosen ? null : chosen;
  if (open !== null) await more();
  render();
}

export function fold() {
  open = null;
  render();
}

export function choose(thread) {
  chosen = thread;
  if (open !== thread) open = null;
  render();
}

export function move(by) {
  if (!told?.next.length) return;
  const order = sorted();
  const at = order.findIndex((one) => one.thread === chosen);
  const one = order[Math.max(0, Math.min(order.length - 1, at + by))];
  if (one) choose(one.thread);
}

export const add = (one = chosenOne()) => one && !one.fixed && step("add", { event: one.event });
export const run = (one = chosenOne()) => one && !one.fixed && step("run", { thread: one.thread });

export function toAim(one = chosenOne()) {
  if (one?.to !== undefined) return step("run", { until: one.to, aim: state.aim });
  if (one && !state.aim) events.say("open a race or a deadlock first: it is the aim");
  else if (one && !one.own && !told.witnessed) events.say("the witness of the aim is not known yet");
  else if (one) events.say(`${threadShort(one.thread)} has come as far as the aim needs`);
  return null;
}

export function follow(one = chosenOne()) {
  const does = one && helpOf(one);
  if (does) return step("run", { until: does.until });
  if (one) events.say(one.why ? "no run of one thread helps here" : `${threadShort(one.thread)} waits for nothing`);
  return null;
}

// A digit is the number of a thread, so it does not move when another thread ends.
export function digit(thread) {
  const one = here()?.next.find((other) => other.thread === thread);
  if (!here() || one?.fixed) return null;
  if (!one) {
    const isThread = thread < state.threads.length;
    return events.say(isThread ? `${threadShort(thread)} is at its end` : `no thread has the digit ${thread + 1}`);
  }
  choose(one.thread);
  if (!one.why) return add(one);
  return events.say(`${threadShort(one.thread)} may not come next: ${reason(one.why, one).textContent}`);
}

// What is chosen is in sight.
filter.addEventListener("input", () => {
  const seen = told ? sorted() : [];
  if (seen.length && !seen.some((one) => one.thread === chosen)) choose(seen[0].thread);
  else if (told) render();
});
filter.addEventListener("keydown", (key) => {
  if (key.key !== "Enter" && key.key !== "Escape") return;
  key.stopPropagation();
  if (key.key === "Escape") filter.value = "";
  else chosen = sorted()[0]?.thread ?? chosen;
  render();
  list.focus();
});
