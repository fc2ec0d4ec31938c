// The screen: one trace, one log, one analyst. This module begins, and takes what the server pushes.
import { $, el, fill, many } from "./make.js";
import { connect, on, ask } from "./net.js";
import { state } from "./words.js";
import { act, actOn, bad, isActing, say, undoLatest } from "./act.js";
import { showLink } from "./dialogs.js";
import { reveal } from "./frame.js";
import { later, now } from "./queue.js";
import { listKeys } from "./keys.js";
import * as sheet from "./sheet.js";
import * as frontier from "./frontier.js";
import { races } from "./races.js";
import { deadlocks } from "./deadlocks.js";
import * as findings from "./findings.js";
import * as feed from "./feed.js";
import * as schedules from "./schedules.js";
import * as views from "./views.js";
import * as pair from "./pair.js";

for (const part of [frontier, feed, pair]) part.events.act = act;
sheet.events.act = actOn;
pair.events.backTo = (length) => actOn(sheet.shown(), "back_to", { name: state.view.schedule, length });
for (const part of [sheet, frontier, feed, schedules]) part.events.say = say;
feed.events.open = schedules.events.open = (view) => now(() => views.open(view));
schedules.events.go = views.open;
feed.events.adopt = schedules.events.adopt = views.adopt;
feed.events.seen = sheet.redraw;
sheet.events.lost = () => state.view?.witness && now(() => views.openPair([...state.view.witness]));
findings.events.open = (pair) => now(() => views.openPair(pair));
$("keys").addEventListener("click", listKeys);
$("link").addEventListener("click", async () => {
  const told = await showLink();
  if (told.mistake) say(bad(told.mistake));
});
$("new").addEventListener("click", views.fresh);
$("undo").addEventListener("click", () => later(undoLatest));

function learn(told) {
  for (const key of ["threads", "client", "title", "source"]) state[key] = told[key];
  state.logLength = told.log_length;
  state.names = told.names ?? {};
  state.rows = new Map(told.rows.map((row) => [row.name, row]));
  state.entries = new Map([...told.proposals, ...told.feed].map((entry) => [entry.number, entry]));
  document.title = `${told.title} · client ${told.client}`;
  $("title").textContent = told.title;
  const facts = [many(told.events, "event"), many(told.threads.length, "thread"), many(told.variables, "variable"),
    many(told.locks, "lock")];
  $("facts").textContent = facts.join(" · ");
  fault(told.fault);
}

let broken = null; // why what is drawn cannot be gone by

function showClient() {
  if (broken) {
    fill($("live"), bad(`Do not go by what is drawn here: ${broken}.`));
    return;
  }
  const name = state.names[state.client];
  fill($("live"), el("span", "live-dot", "●"), ` client ${state.client}`, name ? [", ", el("bdi", "", name)] : null);
}

function fault(why) {
  broken = why;
  showClient();
}

// The schedule that this analyst worked on last.
function latest() {
  const own = [...state.rows.values()].filter((row) => row.owner === state.client || row.by === state.client);
  return own.sort((one, other) => other.touched - one.touched)[0] ?? [...state.rows.values()].at(-1);
}

async function begin() {
  races.load();
  deadlocks.load();
  if (!state.title) fill($("live"), "reading the trace …");
  const looked = views.looked();
  const told = await ask("hello");
  if (told.mistake) {
    say(bad(told.mistake));
    return;
  }
  learn(told);
  feed.begin(told.seen);
  feed.render();
  views.bar();
  if (views.looked() !== looked) return; // something was opened before the answer came
  const [row, kept] = [latest(), history.state];
  if (state.view) views.open(state.view, { end: false, isAsItWas: true, isSame: true });
  else if (kept?.pair || state.rows.has(kept?.schedule)) views.restore(kept);
  else if (row) views.open({ schedule: row.name });
  else {
    views.close();
    reveal("races");
  }
}

// Keys that are typed before the dialog opens are for it.
on("open", () => {
  const begun = begin();
  later(() => begun);
});
on("closed", (text) => fill($("live"), bad(text)));
on("races", () => races.load());
on("deadlocks", () => deadlocks.load());
on("connected", () => state.view && sheet.refresh(false));
on("fault", (told) => fault(told.why));
on("names", (told) => {
  state.names = told.names;
  showClient();
  feed.render();
  views.bar();
  if (state.view) sheet.refresh(false);
});

// Whether this page made a step at the end of the schedule, which should be in sight. A move does not scroll.
function isStep(entry, name) {
  const about = entry.kind === "undo" ? state.entries.get(entry.of) : entry;
  const isElsewhere = about?.name !== undefined && about.name !== name;
  const isMine = entry.client === state.client && isActing();
  return isMine && !isElsewhere && !about?.swaps && !["swap", "propose"].includes(about?.kind);
}

// The name of the schedule that came back, if an entry is this page's undo of a drop.
function broughtBack(entry) {
  const isMine = entry.client === state.client && isActing();
  const undone = entry.kind === "undo" && isMine ? state.entries.get(entry.of) : null;
  return undone?.kind === "drop" ? undone.name : null;
}

// What is drawn is requested first, and the feed is drawn while the answer is under way.
on("log", async (told) => {
  const name = state.view?.schedule;
  feed.take(told);
  const isMine = told.entries.some((entry) => isStep(entry, name));
  const isTouched = name && name in told.rows;
  const drawn = isTouched && told.rows[name] ? [sheet.refresh(isMine), frontier.load()] : [];
  feed.render();
  for (const back of told.entries.map(broughtBack)) if (back) views.reopen(back);
  if (isTouched) views.bar();
  if (isTouched && !told.rows[name]) {
    sheet.reset();
    frontier.load();
  }
  await Promise.all(drawn);
});

connect();
