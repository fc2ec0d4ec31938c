// Lists of what the program found in the trace: races, and deadlocks. Of each a window is fetched, and what is in sight
// is drawn. One filter is for all.
import { $, el, fill, count, option, nameChosen } from "./make.js";
import { part } from "./morph.js";
import { does } from "./press.js";
import * as sight from "./sight.js";

// How many blocks are fetched at once; a new window begins this many before what is to be seen.
const WINDOW = 80;
const BEFORE = 30;
// Who walks down a list by keys looks at the block on which he rests.
const REST = 90;
// A window that is fetched may be overtaken by that of a scroll.
const TRIES = 3;
const filter = $("race-filter");
const lists = [];
export const events = { open: null };

let chosen = null; // the events of the block on which the cursor rests, as a text
let soon = null;

export const sought = () => filter.value;

// A list has its own requests, events of a block, looks of a block, and texts around.
export class Findings {
  constructor(name, height) {
    this.name = name;
    this.height = height;
    this.list = $(`${name}-list`);
    this.space = sight.space(`${name}-space`);
    this.got = null;
    this.asked = 0;
    lists.push(this);
    sight.watch(this.list, () => this.scrolled());
  }

  keyOf(block) {
    return this.eventsOf(block).join("-");
  }

  // Fetches the blocks round those in sight, or others.
  async load(from = Math.max(0, Math.floor(this.list.scrollTop / this.height) - BEFORE)) {
    const mine = ++this.asked;
    const told = await this.request({ from, count: WINDOW });
    if (mine !== this.asked || told.mistake) return;
    this.got = told;
    this.render();
  }

  // Fetches what another filter leaves, and shows it from its first on.
  find() {
    this.list.scrollTop = 0;
    return this.load(0);
  }

  render() {
    const { got, list, space } = this;
    this.around();
    if (got?.state !== "found") {
      fill(list, got?.state === "failed" ? el("p", "empty bad", got.why) : el("p", "empty", this.searching()));
      return;
    }
    space.style.height = `${got.total * this.height}px`;
    const empty = el("p", "empty", filter.value ? "Nothing matches." : this.nothing());
    fill(list, space);
    fill(space, got.total ? this.inSight().map(([block, at]) => this.card(block, at)) : empty);
    nameChosen(list);
  }

  // How many match the filter, of how many.
  matching(kind) {
    const cut = this.got.more ? `the first ${count(this.got.kept)} ${kind}` : "";
    return filter.value ? `${count(this.got.total)} match${cut && ` of ${cut}`}` : cut;
  }

  // Of the blocks that were fetched those in sight; each with its place in the list.
  inSight() {
    const [from, to] = sight.inSight(this.list, this.height);
    return this.got.blocks.map((block, at) => [block, this.got.from + at]).filter(([, at]) => from <= at && at < to);
  }

  card(block, at) {
    const key = this.keyOf(block);
    const sign = JSON.stringify([at, key === chosen, this.got.total]);
    return part(`${this.name}-${key}`, sign, () => this.made(block, at, key === chosen));
  }

  made(block, at, isChosen) {
    const [made, label] = this.drawn(block);
    made.classList.add("finding");
    made.classList.toggle("on", isChosen);
    made.style.top = `${at * this.height}px`;
    made.setAttribute("aria-setsize", this.got.total);
    made.setAttribute("aria-posinset", at + 1);
    does(made, () => this.pick(block));
    return option(made, label, isChosen);
  }

  pick(block, wait = 0) {
    chosen = this.keyOf(block);
    draw();
    clearTimeout(soon?.timer);
    soon = { pair: this.eventsOf(block), timer: setTimeout(settle, wait) };
    if (!wait) settle();
  }

  // Goes to the first block, or to the last one.
  async jump(at) {
    if (!this.got?.blocks) return;
    const wanted = Math.max(0, Math.min(this.got.total - 1, at));
    const found = () => this.got.blocks?.[wanted - this.got.from];
    sight.reveal(this.list, this.height, wanted);
    for (let tries = 0; tries < TRIES && !found(); tries++) await this.load(Math.max(0, wanted - WINDOW + 1));
    if (found()) this.pick(found(), REST);
  }

  step(by) {
    if (!this.got?.blocks?.length) return null;
    const at = this.got.blocks.findIndex((block) => this.keyOf(block) === chosen);
    const seen = Math.ceil(this.list.scrollTop / this.height); // the first in sight, if the chosen one is far away
    return this.jump(at < 0 ? seen : this.got.from + at + by);
  }

  scrolled() {
    const { got, list, height } = this;
    if (!got?.blocks) return;
    const top = Math.floor(list.scrollTop / height);
    const bottom = Math.min(got.total, top + Math.ceil(list.clientHeight / height) + 1);
    if (top < got.from || bottom > got.from + got.blocks.length) this.load(Math.max(0, top - BEFORE));
    else this.render();
  }
}

function draw() {
  for (const one of lists) if (one.got) one.render();
}

// The events of the block on which the cursor rests.
export const chosenPair = () => chosen?.split("-").map(Number) ?? null;

// Opens the block on which the cursor rests, without waiting longer.
export function settle() {
  if (!soon) return;
  const { pair, timer } = soon;
  soon = null;
  clearTimeout(timer);
  events.open(pair);
}

// The block that is looked at is the chosen one, however it was opened.
export function mark(pair) {
  const key = pair?.join("-");
  if (!key || soon || key === chosen) return; // a cursor that moves on is not put back
  chosen = key;
  draw();
}

function findAll() {
  for (const one of lists) one.find();
}

filter.addEventListener("input", findAll);
filter.addEventListener("keydown", (key) => {
  if (key.key === "Escape") {
    filter.value = "";
    findAll();
    lists[0].list.focus();
  } else if (key.key === "Enter" || key.key === "ArrowDown") {
    const one = lists.find((other) => other.got?.total) ?? lists[0];
    one.list.focus();
    one.step(1);
    key.preventDefault();
  }
});
