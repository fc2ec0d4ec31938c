// All schedules, and proposals.
import { $, el, fill, button, count, many, option, nameChosen } from "./make.js";
import { part } from "./morph.js";
import { does } from "./press.js";
import * as sight from "./sight.js";
import { state, who, clientName } from "./words.js";

const HEIGHT = 24;
// How many of the latest proposals are shown.
const PROPOSALS = 6;
const list = $("row-list");
const space = sight.space("row-space");
export const events = { open: null, go: null, adopt: null, say: null };

let shown = null; // which schedule was scrolled to

const byBirth = (one, other) => one.birth[0] - other.birth[0] || one.birth[1] - other.birth[1];
export const inOrder = () => [...state.rows.values()].sort(byBirth);

function line(row, at, total) {
  const isFresh = row.touched >= state.marked && row.by !== state.client;
  const isOn = state.view?.schedule === row.name;
  const sign = JSON.stringify([row, at, total, isFresh, isOn, clientName(row.owner), clientName(row.by)]);
  return part(`schedule-${row.name}`, sign, () => {
    const made = drawn(row, at, isFresh, isOn);
    made.setAttribute("aria-setsize", total);
    return made;
  });
}

function drawn(row, at, isFresh, isOn) {
  const made = el("div", `sched${isOn ? " on" : ""}`, el("span", `fresh${isFresh ? " is" : ""}`, "●"),
    el("span", "sched-name", row.name), el("span", "gap"), el("span", "num dim", count(row.length)), who(row.owner));
  const born = `made by ${clientName(row.owner)} in entry ${row.birth[0]}`;
  const changed = `last changed by ${clientName(row.by)} in entry ${row.touched}`;
  const text = `${row.name}: ${many(row.length, "event")}, ${born}, ${changed}`;
  made.title = text;
  made.style.top = `${at * HEIGHT}px`;
  made.setAttribute("aria-posinset", at + 1);
  does(made, () => events.open({ schedule: row.name }));
  return option(made, isFresh ? `${text}, since you last looked` : text, isOn);
}

function proposal(entry) {
  const [length, adopt] = [many(entry.count, "event"), button("Adopt", "", () => events.adopt(entry))];
  adopt.setAttribute("aria-label", `Adopt p${entry.proposal}`);
  const made = el("div", "proposal",
    el("span", "told", el("span", "num", `p${entry.proposal}`), " shows ", el("span", "num", entry.pair.join("–")),
      el("span", "dim", ` · ${length}`)),
    who(entry.client), adopt);
  const pair = entry.pair.join(" and ");
  const by = `proposed by ${clientName(entry.client)} in entry ${entry.number}`;
  made.title = `p${entry.proposal}: ${length} that show ${pair}, ${by}`;
  made.id = `proposal-${entry.proposal}`;
  return made;
}

function renderList() {
  const all = inOrder();
  const at = all.findIndex((row) => row.name === state.view?.schedule);
  $("row-count").textContent = all.length ? count(all.length) : "";
  space.style.height = `${all.length * HEIGHT}px`;
  fill(list, all.length ? space : el("p", "empty", "None yet."));
  if (shown !== state.view?.schedule && at >= 0) sight.reveal(list, HEIGHT, at);
  shown = state.view?.schedule;
  const [from, to] = sight.inSight(list, HEIGHT);
  fill(space, all.slice(from, to).map((row, number) => line(row, from + number, all.length)));
  nameChosen(list);
}
sight.watch(list, renderList);

export function render() {
  renderList();
  const all = [...state.entries.values()].filter((entry) => entry.kind === "propose");
  const proposals = all.sort((one, other) => other.proposal - one.proposal).slice(0, PROPOSALS);
  const made = proposals.length ? [el("div", "subhead", "Proposals"), proposals.map(proposal)] : null;
  fill($("proposals"), made);
}

// Opens the first schedule, or the last one.
export function edge(at) {
  const row = inOrder().at(at);
  return row ? events.go({ schedule: row.name }) : null;
}

export function neighbour(by) {
  const names = inOrder().map((row) => row.name);
  const at = names.indexOf(state.view?.schedule);
  const next = (Math.max(at, by > 0 ? -1 : 0) + by + names.length) % names.length;
  return names.length ? events.go({ schedule: names[next] }) : events.say("there is no schedule: n makes one");
}
