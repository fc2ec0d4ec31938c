// What the page knows, and events and answers in words.
import { el, hue, many } from "./make.js";

export const state = {
  threads: [], client: 1, title: "", names: {}, source: false,
  view: null, aim: null, aimTold: [],
  rows: new Map(), entries: new Map(), logLength: 0, marked: 0,
};

// The schedule or the witness of a view, for a request.
export const viewed = ({ schedule, witness }) => (witness ? { witness } : { schedule });

// How many signs at the end of a name are the last to be cut.
const END = 9;

// Letters that are read from right to left. Parts go from left to right, so a name with such letters is one part.
const LEFTWARD = /[\u0590-\u08ff\ufb1d-\ufdff\ufe70-\ufefc\u{10800}-\u{10fff}\u{1e800}-\u{1efff}]/u;

// The last member of a variable, with the indices around it, or the path from the number of its object on (`#3.edge`,
// `#T2.1.edge`): there the names of a trace differ. It is within this many letters at the end.
const MEMBER_ROOM = 64;
const NUMBERED = /#(?:\d+|T\d+(?:\.\d+)?)(?:\[\d+\]|[.:][^.:[\]#]+)*/u;
const MEMBER = new RegExp(`(?:${NUMBERED.source})?(?:\\[\\d+\\])*[.:][^.:[\\]]+(?:\\[\\d+\\])*(?:\\+\\d+)?$`, "u");

// A name that is written as its first letter is: if there is no room, its end is cut and not its beginning.
function named(kind, text) {
  const made = el("bdi", kind, text);
  made.dir = "auto";
  return made;
}

// A text in parts: without room for all of it, the folder is cut first, then the front, then a member, and the end
// last.
function inParts(kind, text, folder = 0, calls = null) {
  const signs = [...text.slice(folder)];
  const isCut = signs.length > END + 7 && !LEFTWARD.test(text.slice(folder));
  const front = isCut ? signs.slice(0, -END).join("").length : 0;
  if (!folder && !front && !calls) return named(`${kind} whole`, text);
  const [end, rest] = [folder + front, Math.max(folder, text.length - MEMBER_ROOM)];
  const found = text.slice(rest).search(MEMBER);
  const member = found > 0 && rest + found < end ? rest + found : end;
  const cut = [[text.slice(0, folder), "folder"], [text.slice(folder, member), "front"],
    [text.slice(member, end), "member"], [text.slice(end), "end"]];
  return el("bdi", kind, cut.map(([part, which]) => (part ? el("span", which, part) : null)), calls);
}

export const nameOf = (text, kind = "name") => inParts(kind, text);

// A name among others in a line shows this many of its signs; a title has all signs.
const [THREAD, NAME] = [20, 60];
function cut(text, most) {
  const signs = [...text];
  return signs.length > most ? `${signs.slice(0, most - END - 1).join("")}…${signs.slice(-END).join("")}` : text;
}

export const threadName = (thread) => state.threads[thread]?.[0] ?? String(thread);
export const threadShort = (thread) => cut(threadName(thread), THREAD);

// Whether a name alone does not say whose it is: it is long, so it may be cut, or another client has it too, or it
// looks like what the page itself says.
const isUnclear = (name) => [...name].length > END || /^(\d+|you)$/.test(name) ||
  Object.values(state.names).filter((other) => other === name).length > 1;

// The name of a client, and before it the number if the name is unclear.
function called(client) {
  if (client === state.client) return [null, "you"];
  const name = state.names[client] ?? String(client);
  return [client in state.names && isUnclear(name) ? String(client) : null, name];
}
export const clientName = (client) => called(client).filter(Boolean).join(" ");

export function tag(thread) {
  const made = nameOf(threadShort(thread), `thread ${hue(thread)}`);
  made.title = threadName(thread);
  return made;
}

export function who(client) {
  const [number, name] = called(client);
  const made = el("span", `who${client === state.client ? " me" : ""}`,
    number ? [el("span", "", number), " "] : null, named("whole", name));
  made.title = ["client", client, state.names[client]].filter(Boolean).join(" ");
  return made;
}

export const operation = (event) => [el("span", `op op-${event.operation}`, event.operation), " ", nameOf(event.name)];
export function short(event) {
  const made = el("span", "short", el("span", "num", String(event.event)), " ", tag(event.thread), " ",
    operation({ ...event, name: cut(event.name, NAME) }));
  if (event.name.length > NAME) made.title = event.name;
  return made;
}

// Whether these are the requests of a deadlock, and no accesses of a race.
export const isDeadlock = (aimed) => aimed.length > 1 && aimed.every((event) => event.operation === "acq");

// Of a request of a deadlock who waits for what, and who holds that. The title has the places.
export function waiting(one) {
  const { since } = one;
  const name = el("bdi", "name", cut(one.name, THREAD));
  const made = el("span", "waiting", tag(one.thread), " waits for ", name, ", which ", tag(since.thread),
    " holds since ", el("span", "num", String(since.event)));
  const held = `${threadName(since.thread)} holds since ${since.event} at ${since.location}`;
  made.title = `${threadName(one.thread)} waits for ${one.name} at ${one.location}, which ${held}`;
  return made;
}

const DOES = { r: "reads", w: "writes", acq: "takes lock", rel: "releases lock", fork: "forks", join: "joins" };

// An event as a screen reader says it.
export const spoken = (event) => [`event ${event.event}`,
  `${threadName(event.thread)} ${DOES[event.operation]} ${event.name}`, event.location].join(", ");

// The place of an event and of the call around it: "list.c:787 < list.c:730". Of a path the file and the line
// are cut last, and the calls first.
export function place(text, isShort = false) {
  const [first, ...rest] = text.split(" < ");
  const calls = rest.length && !isShort ? el("span", "calls dim", ` < ${rest.join(" < ")}`) : null;
  const made = inParts("place", first, first.lastIndexOf("/") + 1, calls);
  made.title = text;
  return made;
}

// What a refusal means, with the event that it is about. The title has the program's text.
export function reason(why, event) {
  const inner = { 23: notBegun, 24: wrongWriter, 25: lockHeld, 26: joinEarly, aim: aimNeeds }[why.code]?.(why, event);
  const made = el("span", "reason", inner ?? why.said.replace(/^\d+ /, ""));
  const isRefusal = /^\d/.test(why.said);
  made.title = isRefusal ? `${made.textContent}\nthe program: refused 46 ${why.said}` : made.textContent;
  return made;
}

const aimNeeds = (why) => ["the aim needs ", short(why.about), " first"];

const notBegun = (why) => ["not begun: ", why.about ? short(why.about) : "its fork", " has to come first"];

function lockHeld(why, event) {
  const holder = why.said.replace(/^25 lock held by /, "");
  const since = why.about ? [" since ", el("span", "num", String(why.about.event))] : null;
  const thread = why.about ? tag(why.about.thread) : el("bdi", "", cut(holder, THREAD));
  return ["lock ", el("bdi", "name", cut(event.name, THREAD)), " held by ", thread, since];
}

function wrongWriter(why) {
  const [, needs, has] = /needs (\S+) has (\S+)/.exec(why.said) ?? [];
  const seen = why.has ? short(why.has) : has;
  const missed = why.about ? short(why.about) : needs;
  if (has === "none") return ["would miss the write by ", missed];
  if (needs === "none") return ["would read the write by ", seen, ", where the trace has none before it"];
  return ["would read the write by ", seen, " and miss the one by ", missed];
}

function joinEarly(why, event) {
  const rest = why.left ? `: ${many(why.left, "event")} of it to come` : ": it is not forked";
  return ["waits for ", el("bdi", "name", cut(why.joined ?? event.name, THREAD)), rest];
}

// What would help: the run of another thread to one of its events.
export function help(why) {
  if (why?.help === undefined || why.steps <= 0) return null;
  return { until: why.help, text: `run ${threadShort(why.helper)} to ${why.help} (${why.steps})` };
}

const REFUSALS = {
  42: "no such schedule", 43: "that name is taken", 44: "no such proposal", 45: "there is no event to take back",
  48: "the schedule is shorter", 51: "you have nothing to undo", 54: "it does not show that pair",
  55: "the log is full", 58: "that entry is not yours", 59: "that entry was taken back already",
};

const MAYBE = { read: "the trace or the log may be gone", write: "the disk may be full" };

// What the program said at its end: its line with its notes, or else with what may have led to that.
export function lastWords(gone) {
  const [line, ...notes] = gone.split("\\u{a}note: ");
  if (notes.length) return `${line}: ${notes.join("; ")}`;
  const maybe = MAYBE[/\b(read|write) failed$/.exec(line)?.[1]];
  return maybe ? `${line} (${maybe})` : line;
}

// A line of the session, as a person says it.
export function said(answer) {
  const done = /^(\d+): (done|undone (\d+)|proposed (\d+))$/.exec(answer);
  if (done?.[3]) return `entry ${done[1]}: took back ${done[3]}`;
  if (done?.[4]) return `entry ${done[1]}: proposal ${done[4]}`;
  if (done) return `entry ${done[1]}`;
  const refused = /^refused (\d+) (.*)$/.exec(answer);
  return refused ? `refused: ${REFUSALS[refused[1]] ?? refused[2]}` : answer;
}

export const isDone = (told) => /: done$/.test(told.answer ?? "");
export const isRefused = (told) => /^(refused|line|not sent)/.test(told.answer ?? "");
