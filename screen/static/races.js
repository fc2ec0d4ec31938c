// The races of the trace, and what is undecided or apart.
import { $, el, fill, button, count, many } from "./make.js";
import { Findings, sought } from "./findings.js";
import { ask } from "./net.js";
import { nameOf, place } from "./words.js";

const HEIGHT = 58;
const KINDS = [["race", "races"], ["undecided", "undecided"], ["apart", "apart"]];
const kinds = new Set(["race", "undecided"]);

class Races extends Findings {
  constructor() {
    super("race", HEIGHT);
  }

  request(given) {
    return ask("races", { text: sought(), kinds: [...kinds], ...given });
  }

  eventsOf(block) {
    return block.accesses.map((access) => access.event);
  }

  around() {
    fill($("race-kinds"), KINDS.map((kind) => this.chip(kind)));
    $("race-count").textContent = this.got?.state === "found" ? this.counted() : "";
  }

  chip([kind, plural]) {
    const { races: all, known = 0 } = this.got?.counts ?? {};
    const total = kind === "race" ? all && all - known : this.got?.counts?.[kind];
    const word = total === 1 && kind === "race" ? "race" : plural;
    const made = button(total === undefined ? word : `${count(total)} ${word}`, "", () => {
      if (!kinds.delete(kind)) kinds.add(kind);
      this.find();
    }, "chip");
    made.dataset.does = kind;
    made.setAttribute("aria-pressed", kinds.has(kind));
    return made;
  }

  searching() {
    const far = this.got?.progress ? `: ${this.got.progress}` : "";
    return `Looking for the races of the trace${far}. You can make schedules meanwhile.`;
  }

  nothing() {
    return "No pair of this kind.";
  }

  // How many of the list match, of how many, and how many were left out of it.
  counted() {
    const known = this.got.counts?.known ? `${count(this.got.counts.known)} known left out` : "";
    return [this.matching("pairs"), known].filter(Boolean).join(", ");
  }

  drawn(block) {
    const [one, other] = block.accesses;
    const verdict = block.kind === "race" ? block.how : block.kind;
    const made = el("div", `race v-${block.kind}`,
      el("span", "race-top", nameOf(one.variable, "variable"), el("span", "gap"), ended(block),
        el("span", `verdict v-${verdict}`, verdict), el("span", "num count", `×${count(block.pairs)}`)),
      side(one), side(other));
    made.title = title(block);
    const sides = [one, other].map((access) => `${access.operation} at ${access.location} by ${access.thread}`);
    const end = block.ended ? `, replayed: ${block.ended.word}` : "";
    return [made, `${verdict}, ${one.variable}, ${sides.join(" and ")}, ${many(block.pairs, "pair")}${end}`];
  }
}

function side(access) {
  return el("span", "side", el("span", `op op-${access.operation}`, access.operation), " ",
    place(access.location, true), nameOf(access.thread, "dim by"));
}

function title(block) {
  const [one, other] = block.accesses;
  const shown = block.events === undefined ? "" :
    `, shown by ${many(block.events, "event")} of ${many(block.threads, "thread")}`;
  const held = block.accesses.filter((access) => access.holds.length)
    .map((access) => `\n${access.event} holds ${access.holds.join(", ")}`);
  return `${many(block.pairs, "pair")} of events; the least: ${one.event} and ${other.event}${shown}${held.join("")}`;
}

// How a replay of the real program ended, where somebody had it follow the witness.
function ended(block) {
  if (!block.ended) return null;
  const made = el("span", "ended", block.ended.word);
  made.title = block.ended.text;
  return made;
}

export const races = new Races();
