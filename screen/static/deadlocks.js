// The deadlocks of the trace. Of patterns that are undecided or apart there are the numbers alone.
import { $, el, count, many } from "./make.js";
import { Findings, sought } from "./findings.js";
import { ask } from "./net.js";
import { nameOf, place } from "./words.js";

const HEIGHT = 94;

class Deadlocks extends Findings {
  constructor() {
    super("deadlock", HEIGHT);
  }

  request(given) {
    return ask("deadlocks", { text: sought(), ...given });
  }

  eventsOf(block) {
    return block.requests.map((request) => request.event);
  }

  around() {
    const { state, counts, total } = this.got ?? {};
    const isFound = state === "found";
    $("deadlock-list").hidden = isFound ? !total : state !== "failed";
    $("deadlock-count").textContent = isFound ? this.counted(counts) : state === "failed" ? "" : this.searching();
    $("deadlock-count").title = isFound ? details(this.got) : "";
  }

  searching() {
    return "looking for them …";
  }

  nothing() {
    return "";
  }

  // How many there are and how many match, and what is known of other patterns.
  counted(counts) {
    const kinds = ["undecided", "apart"].filter((kind) => counts[kind]);
    const others = kinds.map((kind) => `${count(counts[kind])} ${kind}`);
    const limits = counts.whole === 1 ? "not all were looked at" : "";
    return [counts.deadlocks ? count(counts.deadlocks) : "none", this.matching("deadlocks"), ...others, limits]
      .filter(Boolean).join(", ");
  }

  drawn(block) {
    const verdict = el("span", `verdict v-${block.how}`, block.how);
    const size = `${many(block.events, "event")}, ${many(block.threads, "thread")}`;
    const locks = block.requests.map(({ lock }, at) => [at ? el("span", "dim", "⇄") : null, nameOf(lock, "variable")]);
    const made = el("div", "deadlock",
      el("span", "race-top", locks, el("span", "gap"), verdict, el("span", "count", size)), block.requests.map(sides));
    const label = `deadlock, ${block.how}, ${block.requests.map(said).join("; ")}; ${size}`;
    made.title = `${block.requests.map(said).join("\n")}\nshown by ${size.replace(",", " of")}`;
    return [made, label];
  }
}

// A request, and below it the lock that its thread holds.
function sides({ thread, lock, location, hold }) {
  return [
    el("span", "side", nameOf(thread, "thread-name"), el("span", "dim", "waits for"), nameOf(lock),
      place(location, true)),
    el("span", "side held", el("span", "dim", "holds"), nameOf(hold.lock),
      el("span", "dim", "since ", el("span", "num", String(hold.event))), place(hold.location, true)),
  ];
}

function said({ event, thread, lock, location, hold, holds }) {
  const others = holds.length ? `, and ${holds.join(", ")}` : "";
  const held = `holds ${hold.lock} since ${hold.event} at ${hold.location}${others}`;
  return `${event}: ${thread} waits for ${lock} at ${location}, ${held}`;
}

// What the numbers are of.
function details({ counts, missing }) {
  const patterns = `${many(counts.patterns, "pattern")} of locks that two threads take in two orders`;
  const looked = counts.whole === 1 ? "\nNot all acquires were looked at." : "";
  return `${patterns}${looked}${missing ? `\nThe recording is not whole: ${missing}` : ""}`;
}

export const deadlocks = new Deadlocks();
