// The keys. What a key does depends on the pane that has the focus; without one it is what may come next.
import { $ } from "./make.js";
import { state, viewed } from "./words.js";
import { act, actOn, say, undoLatest } from "./act.js";
import { later, isBusy } from "./queue.js";
import { answer, showKeys } from "./dialogs.js";
import { nextPane, paneOf, reveal } from "./frame.js";
import { hidePeek, viewSource } from "./peek.js";
import { best } from "./pair.js";
import * as sheet from "./sheet.js";
import * as frontier from "./frontier.js";
import { races } from "./races.js";
import { deadlocks } from "./deadlocks.js";
import { chosenPair, settle } from "./findings.js";
import * as feed from "./feed.js";
import * as views from "./views.js";
import { edge, neighbour } from "./schedules.js";

const schedule = () => state.view?.schedule;
const last = () => Math.max(0, (sheet.current()?.length ?? 0) - 1);

function swap(shown, by) {
  const row = sheet.cursorRow();
  if (!row) return say("choose an event first: ↑ and ↓ move the cursor");
  return row.size ? say("a block cannot be moved: Enter opens it") : sheet.swap(shown, row.position, by);
}

function propose() {
  const told = frontier.current();
  if (told?.waits.length) return say("a proposal is of two accesses: a deadlock has none");
  if (told?.pairs.length) return act("propose", { view: viewed(state.view), pair: best(told) });
  return say("no pair is side by side in this schedule");
}

// Works on the witness that is looked at, or looks at that of the chosen race or deadlock.
function openChosen() {
  if (state.view?.witness) return views.take();
  const pair = chosenPair();
  return pair ? views.openPair(pair) : say("choose a race or a deadlock first: ↑ and ↓ move the cursor");
}

// Keys that have nothing to work on say so.
const ofAim = (step) => () => (state.aim ? step() : say("open a race or a deadlock first: it is the aim"));
const ofSchedule = (step) => () => {
  if (state.rows.has(schedule())) return step();
  if (schedule()) return say(`${schedule()} was dropped: n makes a schedule`);
  return say(state.view ? "this is a witness: w works on it, e starts empty" : "no schedule is open: n makes one");
};

// Each waits for the one before it; the race or deadlock on which the cursor rests is opened first.
function inOrder(step) {
  settle();
  return later(step);
}
const inTurn = (keys) => Object.fromEntries(Object.entries(keys).map(([key, does]) => [key, () => inOrder(does)]));
// A step that goes by position is for what is shown when its key, or its button, is pressed.
const ofShown = (step) => (before = sheet.shown()) => inOrder(ofSchedule(() => step(sheet.meant(before))));
const down = (move) => ({ ArrowDown: () => move(1), j: () => move(1), ArrowUp: () => move(-1), k: () => move(-1) });

// The keys that follow are for what may come next, though the schedule may be opened later.
function goToNext() {
  $("next-list").focus();
  inOrder(ofSchedule(() => $("next-list").focus()));
}

const takeBack = ofShown((shown) => actOn(shown, "back", { name: shown.name }));
let pressed = null; // what was shown when the button went down
$("back").addEventListener("pointerdown", () => {
  pressed = sheet.shown();
});
$("back").addEventListener("click", ({ detail }) => takeBack(detail ? pressed : sheet.shown()));

let opening = 0; // questions for a name that wait for their turn
const typed = []; // keys that were typed before a question opened
let isGiving = false;

function branch() {
  const before = sheet.shown();
  let isOpening = true;
  opening++;
  const go = () => {
    if (isOpening) opening--;
    isOpening = false;
    give();
  };
  inOrder(() => {
    ofSchedule(() => void views.branch(sheet.meant(before)))();
    go();
  }).then(go); // a step that is left out opens nothing
}

// Gives the keys that were typed before it opened to the question, and those after it to the page.
async function give() {
  if (isGiving) return;
  isGiving = true;
  while (typed.length && !opening) {
    const event = typed.shift();
    if ($("ask").open) answer(event.key);
    else press(event);
    await new Promise((done) => setTimeout(done)); // what the key does begins
  }
  isGiving = false;
}

function markSeen() {
  feed.caughtUp();
  say("the log is marked as seen");
}

function filterRaces() {
  reveal("races");
  $("race-filter").focus();
}

const ends = (first, last) => ({ Home: first, End: last });
const ALL = "all"; // of panes: the key does this if the pane has no key of this name

// Each key: how it is written, what it does, and what the page calls for it, by pane. `?` lists this table, and
// tools/keys makes the table of docs/SCREEN.md.
const KEYS = [
  ["Next events", [
    ["↑ ↓  j k", "choose a thread", { "next-list": inTurn(down(frontier.move)) }],
    ["↵", "add its next event", { "next-list": inTurn({ Enter: ofSchedule(() => frontier.add()) }) }],
    ["1–9", "add the next event of this thread", {}],
    ["⌫", "take the last event back", { [ALL]: { Backspace: () => takeBack() } }],
    ["r", "run the thread until it must stop", { [ALL]: inTurn({ r: ofSchedule(() => frontier.run()) }) }],
    ["t", "run it as far as the aim needs", { [ALL]: inTurn({ t: ofSchedule(() => frontier.toAim()) }) }],
    ["f", "run what it waits for", { [ALL]: inTurn({ f: ofSchedule(() => frontier.follow()) }) }],
    ["→ ←", "list what comes, fold the list; a click runs to there", {
      "next-list": inTurn({ ArrowRight: ofSchedule(frontier.unfold), ArrowLeft: frontier.fold }),
    }],
  ]],
  ["Schedule", [
    ["↑ ↓  j k", "move the cursor", { stage: inTurn(down(sheet.step)) }],
    ["Alt ↑ ↓", "swap with the neighbour; you can also drag the event", {
      stage: {
        "Alt+ArrowUp": ofShown((shown) => swap(shown, -1)), "Alt+ArrowDown": ofShown((shown) => swap(shown, 1)),
      },
    }],
    ["↵", "open or close a block, go to the write that is read", { stage: inTurn({ Enter: sheet.enter }) }],
    ["b", "branch after the cursor", { [ALL]: { b: branch } }],
    ["v", "show the source around the event", { [ALL]: inTurn({ v: viewSource }) }],
  ]],
  ["Work", [
    ["w", "witness of the aim; work on it", {
      [ALL]: inTurn({ w: () => (state.view?.witness ? views.take() : ofAim(views.witness)()) }),
    }],
    ["e", "start empty towards the aim", { [ALL]: inTurn({ e: ofAim(views.startEmpty) }) }],
    ["x", "why: the explanation", { [ALL]: inTurn({ x: ofAim(views.why) }) }],
    ["p", "propose the pair that is shown", { [ALL]: inTurn({ p: ofSchedule(propose) }) }],
    ["n", "new schedule", { [ALL]: { n: views.fresh } }],
    ["[ ]", "previous, next schedule", { [ALL]: inTurn({ "[": () => neighbour(-1), "]": () => neighbour(1) }) }],
    ["u  Ctrl z", "undo your latest step", { [ALL]: inTurn({ u: undoLatest, "Ctrl+z": undoLatest }) }],
    ["s", "mark the log as seen", { [ALL]: { s: markSeen } }],
  ]],
  ["Lists of races, deadlocks and schedules", [
    ["↑ ↓  j k", "choose a race, a deadlock, a schedule", {
      "race-list": down((by) => races.step(by)), "deadlock-list": down((by) => deadlocks.step(by)),
      "row-list": inTurn(down(neighbour)),
    }],
    ["↵", "open a race or a deadlock, work on its witness; go to the next events of a schedule", {
      "race-list": { Enter: () => inOrder(openChosen) }, "deadlock-list": { Enter: () => inOrder(openChosen) },
      "row-list": { Enter: goToNext },
    }],
    ["Home End", "first, last line of each list", {
      stage: inTurn(ends(() => sheet.jump(0), () => sheet.jump(last()))),
      "race-list": ends(() => races.jump(0), () => races.jump(Infinity)),
      "deadlock-list": ends(() => deadlocks.jump(0), () => deadlocks.jump(Infinity)),
      "row-list": inTurn(ends(() => edge(0), () => edge(-1))),
      "next-list": inTurn(ends(() => frontier.move(-Infinity), () => frontier.move(Infinity))),
    }],
    ["/", "filter races and deadlocks", { [ALL]: { "/": filterRaces } }],
  ]],
  ["Screen", [
    ["F6", "next pane, also from a field", { [ALL]: { F6: () => nextPane(1) } }],
    ["Shift F6", "previous pane", { [ALL]: { "Shift+F6": () => nextPane(-1) } }],
    ["?", "keys", { [ALL]: { "?": listKeys } }],
    ["Esc", "close what is open", {}],
  ]],
];

// What the keys of a pane do.
const keysOf = (pane) => Object.assign({}, ...KEYS.flatMap(([, lines]) => lines.map(([, , does]) => does[pane] ?? {})));
const IN = Object.fromEntries(["stage", "race-list", "deadlock-list", "row-list", "next-list", ALL]
  .map((pane) => [pane, keysOf(pane)]));

// A function, since the table names it before it is whole.
export function listKeys() {
  showKeys(KEYS);
}

// Signs that some keyboards have with Alt alone.
const SIGNS = "[]/?";

function named(event) {
  const isSign = event.key.length === 1;
  if (SIGNS.includes(event.key)) return event.key;
  const key = isSign && !event.shiftKey ? event.key.toLowerCase() : event.key; // the caps lock changes no key
  const shift = event.shiftKey && !isSign ? "Shift+" : "";
  return `${event.ctrlKey ? "Ctrl+" : ""}${event.altKey ? "Alt+" : ""}${shift}${key}`;
}

function meant(event) {
  const name = named(event);
  const isButton = event.target.closest("button, a") && (event.key === "Enter" || event.key === " ");
  if (isButton) return null;
  if (/^[1-9]$/.test(name)) return () => inOrder(ofSchedule(() => frontier.digit(Number(name) - 1)));
  return IN[paneOf(document.activeElement) ?? "next-list"]?.[name] ?? IN[ALL][name];
}

// Those that lead from a field to the panes.
const isPaneKey = (event) => event.key === "F6" && !event.target.closest("dialog");

// A link without an address is followed by the same key as one that has one.
function follow(event) {
  const link = event.key === "Enter" ? event.target.closest("a[role=link]") : null;
  if (!link) return false;
  event.preventDefault(); // the key is not for what the link opens
  link.click();
  return true;
}

// Those of the browser itself wait for nothing.
const isOfBrowser = (event) => event.ctrlKey || event.metaKey || /^F\d/.test(event.key);

addEventListener("keydown", (event) => {
  if ((!opening && !isGiving) || isOfBrowser(event)) {
    press(event);
    return;
  }
  event.preventDefault();
  typed.push(event);
});

function press(event) {
  const isField = event.target.closest("input, textarea, dialog");
  if (event.key === "Escape") {
    hidePeek();
    sheet.letGo();
    if (event.target.closest(".until-event")) $("next-list").focus();
    if (!isField && state.view) views.hideNote();
    return;
  }
  if ((isField && !isPaneKey(event)) || event.metaKey || follow(event)) return;
  const does = meant(event);
  if (!does) return;
  event.preventDefault();
  if (event.repeat && isBusy()) return; // a key that is held goes on no longer than it is held
  hidePeek();
  does();
}
