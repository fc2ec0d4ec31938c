// What is looked at: a schedule, a witness, or why a pair has none; and the aim, which is
// the race or the deadlock that is open.
import { $, el, fill, button, many } from "./make.js";
import { ask, isOpen } from "./net.js";
import { state, viewed, who, short, isDeadlock, isDone, isRefused, lastWords } from "./words.js";
import { act, actOn, awaited, bad, say as tell } from "./act.js";
import { asked } from "./dialogs.js";
import { reveal } from "./frame.js";
import { later, now } from "./queue.js";
import * as sheet from "./sheet.js";
import * as frontier from "./frontier.js";
import { mark } from "./findings.js";
import * as schedules from "./schedules.js";

const note = $("note");
// The longest name of a schedule.
const LONGEST = 64;

function say(...parts) {
  note.hidden = false;
  fill(note, ...parts);
}

export const hideNote = () => {
  note.hidden = true;
};

// Grows with each look at something else, so an answer that comes late is known to be overtaken.
let looks = 0;
let sought = null; // the pair whose witness is looked for
let none = null; // why the pair that was looked at last has no witness

export const looked = () => looks;

// Each look is a step of the browser's history: its back button leads to the look before, and a reload to the same one.
function remember(look) {
  const kept = history.state;
  const isSame = kept && kept.schedule === look.schedule && kept.pair?.join() === look.pair?.join();
  try {
    if (kept === null || isSame) history.replaceState(look, "");
    else history.pushState(look, "");
  } catch {
    // a browser may refuse more looks than this many in a second
  }
}

// Looks at what the browser's history has kept.
export async function restore(look) {
  if (look?.pair) return openPair(look.pair);
  if (!look?.schedule) return close();
  const mine = ++looks;
  await aimAt(look.aim ?? null);
  return mine === looks ? open({ schedule: look.schedule }, { isAsItWas: true }) : null;
}

addEventListener("popstate", (event) => {
  if (!location.hash) now(() => restore(event.state));
});

const rememberView = (view) =>
  remember(view.schedule ? { schedule: view.schedule, aim: state.aim } : { pair: view.witness });

// Without a connection nothing else can be fetched, so what is shown stays.
function isLost() {
  if (!isOpen()) tell(bad("not connected"));
  return !isOpen();
}

// A schedule that is opened as it was before has the aim that it had, or none.
export async function open(view, { end = true, isAsItWas = false, isSame = false } = {}) {
  if (isLost()) return;
  looks++;
  none = sought = null;
  state.view = view;
  rememberView(view);
  hideNote();
  sheet.reset({ end, isSame });
  bar();
  reveal("centre");
  if (view.schedule) await openSchedule(view, isAsItWas);
  else {
    await sheet.load();
    if (state.view !== view) return; // something else is open by now, and has its own list of what comes next
    frontier.show(view.pair);
    schedules.render();
  }
  bar();
}

async function openSchedule(view, isAsItWas) {
  const name = view.schedule;
  const aim = isAsItWas ? null : /^[rd](\d+)-(\d+)/.exec(name);
  if (aim && !state.aim) {
    await aimAt([Number(aim[1]), Number(aim[2])]);
    if (state.view === view) rememberView(view);
  }
  await Promise.all([sheet.load(), frontier.load()]);
  schedules.render();
  check(name);
}

// Nothing is open.
export function close() {
  looks++;
  none = sought = null;
  state.view = null;
  sheet.reset();
  frontier.load();
  schedules.render();
  bar();
}

// The program shows the schedule once, and that must be what is drawn.
async function check(name) {
  const told = await ask("check", { name });
  if (told.same !== false || state.view?.schedule !== name) return;
  const why = bad("The program shows this schedule differently from how it is drawn here. " +
    "Do not go by the drawing; reload the page, and report this.");
  why.setAttribute("role", "alert");
  say(why);
}

// Until its events are known, the line of the aim shows those that it had.
export async function aimAt(pair) {
  state.aim = pair;
  mark(pair);
  const told = pair ? await ask("pair", { pair }) : { accesses: [] };
  if (state.aim !== pair) return;
  if (told.mistake) state.aim = null;
  state.aimTold = told.accesses ?? [];
  bar();
}

export async function clearAim() {
  if (none) hideNote();
  looks++;
  none = sought = null;
  await aimAt(null);
  if (state.view?.schedule) {
    rememberView(state.view);
    frontier.load();
  } else if (!state.view) remember({});
  sheet.load();
}

// A race or a deadlock of a list: its witness, or the explanation why it has none.
export async function openPair(pair) {
  if (isLost()) return;
  const mine = ++looks;
  await aimAt(pair);
  if (mine === looks) await look(pair, mine);
}

async function look(pair, mine) {
  sought = pair;
  reveal("centre");
  bar();
  const told = await ask("witness", { pair });
  if (mine !== looks || told.lost) return;
  if (!told.none && !told.mistake && !told.gone) {
    await open({ witness: told.pair, pair: told });
    return;
  }
  const text = await ask("explain", { pair });
  if (mine !== looks || text.lost) return;
  close();
  remember({ pair });
  none = told.none ?? told.mistake ?? lastWords(told.gone);
  bar();
  say(el("pre", "explained", (text.lines ?? [none]).join("\n")));
}

export const witness = () => state.aim && openPair([...state.aim]);

export async function why() {
  if (!state.aim) return null;
  if (!note.hidden && none) return tell("its explanation is shown");
  if (!note.hidden) return hideNote();
  const [mine, aim] = [looks, state.aim];
  const text = await awaited(ask("explain", { pair: aim }));
  if (mine !== looks || aim !== state.aim) return null; // something else is looked at by now
  return say(el("pre", "explained", (text.lines ?? [text.mistake ?? lastWords(text.gone)]).join("\n")));
}

// The line over the schedule, and that of the aim.

// A screen reader says what is open, whoever opened it.
function heading(text) {
  const made = el("h2", "title", text);
  made.setAttribute("aria-live", "polite");
  return made;
}

function titled() {
  const view = state.view;
  if (view?.schedule) {
    const row = state.rows.get(view.schedule);
    const size = row ? el("span", "dim", many(row.length, "event")) : el("span", "bad", "dropped");
    return [heading(view.schedule), size, row ? [" ", who(row.owner)] : null];
  }
  if (view?.witness) {
    const size = `${many(view.pair.length, "event")} · proved, and not in the log`;
    return [heading("Witness"), el("span", "dim", size)];
  }
  if (state.aim && sought) return [heading("Looking for the witness …")];
  if (state.aim && none) return withoutWitness();
  return [heading("No schedule"), el("span", "dim", "open a race or a deadlock, or make an empty schedule")];
}

// What the program said of a pair: a proof that no schedule shows it, or that none is known, or a fault.
function withoutWitness() {
  const [, kind] = /not shown: (\w+)/.exec(none) ?? [];
  if (kind === "open") return [heading("No schedule of this pair is known"), el("span", "dim", "undecided")];
  if (kind) return [heading("No schedule shows this pair"), el("span", "dim", `proved: ${kind}`)];
  return [heading("No witness"), el("span", "bad", none)];
}

const making = new Set(); // buttons whose steps are under way, each with the look at which it was clicked

// A button whose step waits for those before it, and is made once by a double click. Other buttons wait for no button.
function inTurn(text, key, step, classes) {
  return button(text, key, ({ clicks }) => {
    const mine = `${looks} ${text}`;
    if (clicks > 1 || making.has(mine)) return;
    making.add(mine);
    later(step).then(() => making.delete(mine));
  }, classes);
}

function viewButtons() {
  if (state.view?.witness) {
    const aimed = state.aim ? [inTurn("Start empty", "e", startEmpty), inTurn("Why", "x", why)] : null;
    return [inTurn("Work on it", "w", take, "main"), aimed];
  }
  const isThere = state.rows.has(state.view?.schedule); // another analyst may have dropped it
  if (!isThere) return null;
  return el("span", "together", button("Branch", "b", () => branch()), inTurn("Drop", "", drop));
}

function aimLine() {
  const clear = button("×", "", clearAim, "plain");
  clear.title = "Drop the aim";
  clear.setAttribute("aria-label", "Drop the aim");
  const pair = state.aimTold.map((event, at) => [at ? " ↔ " : " ", short(event)]);
  const empty = () => inTurn("Start empty", "e", startEmpty);
  const does = state.view && sought ? el("span", "dim", "looking for its witness …")
    : state.view?.witness ? null : none ? empty()
    : [inTurn("Witness", "w", witness), empty(), inTurn("Why", "x", why)];
  return el("div", "line of-aim", el("span", "aim", el("span", "word", "aim"), pair), clear, el("span", "gap"), does);
}

export function bar() {
  fill($("bar"), el("div", "line", titled(), el("span", "gap"), viewButtons()), state.aim ? aimLine() : null);
  $("centre").classList.toggle("none", !state.view && Boolean(none));
}

// Schedules are made.

function freeName(base, end = "") {
  for (let at = 1; ; at++) {
    const more = at === 1 ? end : `${end}.${at}`;
    const name = base.slice(0, LONGEST - more.length) + more;
    if (!state.rows.has(name)) return name;
  }
}

// The name of a schedule says which race or which deadlock it is for.
const nameOf = (aimed) => `${isDeadlock(aimed) ? "d" : "r"}${aimed.map(({ event }) => event).join("-")}`;

export async function take() {
  const view = state.view;
  if (!view?.witness) return;
  const name = freeName(nameOf(view.pair.accesses));
  const told = await act("enter", { view: viewed(view), name });
  if (told.answer && !isRefused(told)) await begin(name);
}

export async function startEmpty() {
  if (!state.aim) return;
  await make("new", { name: freeName(nameOf(state.aimTold)) });
}

// Opens a schedule that was made. Who pressed a button for it goes on with what comes next: Enter is not to press that
// button again.
async function begin(name) {
  await open({ schedule: name });
  const at = document.activeElement;
  if (!at || at === document.body || at.closest("button")) $("next-list").focus();
}

// Makes a schedule and opens it.
async function make(what, given, shown = null) {
  const told = await (shown ? actOn(shown, what, given) : act(what, given));
  if (isDone(told)) await begin(given.to ?? given.name);
}

export async function fresh() {
  const name = await asked("Name of the new schedule", freeName("A"), "letters, digits, _ - .");
  if (name) later(() => make("new", { name }));
}

// The branch is of what is shown when it is made, though the name may come later.
export async function branch(shown = sheet.meant(null)) {
  const name = state.view?.schedule;
  const row = state.rows.get(name);
  if (!row) return;
  const at = sheet.cursorRow();
  const length = at ? at.position + (at.size ?? 1) : row.length;
  const last = at?.size ? at.last.event : at?.event;
  const to = await asked(`Branch ${name} after its first ${many(length, "event")}`, freeName(name, ".b"),
    at ? `up to and including event ${last}, where the cursor is` : "all of it; move the cursor to branch earlier");
  if (to) later(() => make("branch", { name, length, to }, shown));
}

export async function drop() {
  const name = state.view?.schedule;
  if (!name || !isDone(await act("drop", { name }))) return;
  close();
  remember({});
}

// Opens a schedule again whose drop was taken back, unless something else is looked at.
export function reopen(name) {
  if (!state.view && !none && !sought && state.rows.has(name)) later(() => open({ schedule: name }));
}

export async function adopt(entry) {
  const open = state.view?.schedule;
  const base = state.rows.has(open) ? open : freeName(`r${entry.pair.join("-")}`);
  const name = await asked(`Adopt proposal p${entry.proposal} into`, base, "a new name makes a new schedule");
  if (name) later(() => adoptInto(name, entry));
}

async function adoptInto(name, entry) {
  if (!state.rows.has(name) && !isDone(await act("new", { name }))) return;
  if (!isDone(await act("adopt", { name, proposal: entry.proposal }))) return;
  await aimAt(entry.pair);
  await begin(name);
}
