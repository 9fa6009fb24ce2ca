// What is known of positions, and what is asked: the position that is looked at first, deeper by itself, then the others of its game, each
// time all of them a little deeper, and then the first one still deeper.
//
// Values come from the engine in this browser. Depths that it takes seconds for are asked of the page's service, where that offers them, as
// all are where the engine doesn't run. What was asked of a position that was left is given up.

import { ServiceFault, lines, pause } from "./lines.js";
import { count, isOver, result, sideOf } from "./rules.js";
import { flipped, isExact, rank } from "./scores.js";

export const TO_THE_END = 12; // empty squares with which a position is searched to the end of the game
export const DEEPEST = 12; // plies that the engine looks
const QUICK = 8; // plies for which it takes less than a second
const AT_ONCE = 3; // questions of the game's other positions
const LONGEST_PAUSE = 8; // seconds between two tries of a service that can't be reached

/** The depths by which a position is looked at, up to this one: 2, 4, 6 and so on; where few squares are empty, the end at once. */
export function stepsOf(position, depth) {
  const empty = count(position, "-");
  if (empty <= TO_THE_END) return [empty];
  const steps = [];
  for (let step = 2; step < depth; step += 2) steps.push(step);
  return [...steps, depth];
}

/** About how many milliseconds of a processor a position takes at a depth. */
function workOf(position, depth) {
  const empty = count(position, "-");
  return empty <= TO_THE_END ? 40 / 2 ** (TO_THE_END - empty) : 0.02 * 3.5 ** (depth - 2);
}

export class Analyst {
  /** `changed` is called when something was learnt, or how a question stands. `local` gives values here, `service` has the depths that the page's service offers. */
  constructor(local, changed) {
    Object.assign(this, { local, changed, known: new Map(), asked: new Map(), faults: new Map(), wanted: [], service: [], pace: 0.4, since: 0, work: 0 });
    this.lines = 1; // behind so many moves of the position that is looked at
  }

  /** What is known: {depth, score, best, table, line, lines, ends}, or nothing; `ends`: all was searched to the game's end, as of a finished one. */
  of(position) {
    if (!this.known.has(position) && isOver(position)) this.known.set(position, ended(position));
    return this.known.get(position);
  }

  /** How the question of a position stands: {kind: waiting, searching, lost or fault, ..}, or nothing. */
  stateOf(position) {
    return this.asked.get(position)?.state ?? this.faults.get(position);
  }

  /** Whether anything here gives values, or may yet. */
  get isAble() {
    return Boolean(this.local.engine && !this.local.engine.closed) || this.service.length > 0 || !this.local.fault;
  }

  /** The next depth that a position is to be looked at; nothing where it is known as deep as that. */
  next({ position, depth }) {
    const known = this.of(position), most = this.local.engine ? DEEPEST : Math.max(1, ...this.service), least = Math.min(depth, most);
    if (known && (known.ends || known.last || known.depth >= least)) return undefined;
    return stepsOf(position, least).find((step) => !known || step > known.depth);
  }

  isKnown(need) {
    return this.faults.has(need.position) || this.next(need) === undefined;
  }

  /** How many of what is wanted are known, of how many, and about how many seconds the others take, by what was done up to now. */
  progress() {
    const open = this.wanted.filter((need) => !this.isKnown(need));
    const work = open.reduce((all, { position, depth }) => all + stepsOf(position, depth).filter((step) => step > (this.of(position)?.depth ?? 0)).reduce((sum, step) => sum + workOf(position, step), 0), 0);
    return { known: this.wanted.length - open.length, all: this.wanted.length, left: (work * this.pace) / 1000 };
  }

  /** What is wanted from now on: a list of {position, depth}, the one that is looked at first. */
  want(wanted) {
    const positions = new Set(wanted.map(({ position }) => position));
    this.wanted = wanted;
    for (const [position, question] of this.asked) {
      if (!positions.has(position) || (question.slow && position !== wanted[0].position)) this.drop(position);
    }
    this.go();
  }

  /** Asks what is to be known next, as much as is asked at once. */
  go() {
    const [here, ...others] = this.wanted;
    if (!here || !(this.local.engine || this.local.fault)) return;
    const depth = this.faults.has(here.position) ? undefined : this.next(here), isQuick = depth <= QUICK || depth === count(here.position, "-");
    if (isQuick) return void this.ask(here.position, depth);
    this.askLine(here.position);
    const open = others.map((need) => ({ ...need, step: this.isKnown(need) ? undefined : this.next(need) })).filter(({ step }) => step !== undefined);
    // the end of the game is as soon known as a middle depth
    const order = ({ position, step }) => (count(position, "-") <= TO_THE_END ? 5 : step);
    open.sort((one, two) => order(one) - order(two));
    if (!open.length && depth !== undefined) return void this.ask(here.position, depth); // deeper, when the game is known
    for (const { position, step } of open) {
      if (this.asked.size >= AT_ONCE) return;
      this.ask(position, step);
    }
  }

  drop(position) {
    this.asked.get(position)?.stop.abort();
    this.asked.delete(position);
  }

  dropAll() {
    this.wanted = [];
    for (const position of [...this.asked.keys()]) this.drop(position);
  }

  /** Faults are forgotten, so that what failed is asked again. */
  forget() {
    this.faults = new Map();
  }

  async ask(position, depth) {
    if (this.asked.has(position)) return;
    const isSlow = depth > QUICK && depth < count(position, "-"), isHere = this.local.engine && !(isSlow && this.service.includes(depth));
    const question = { stop: new AbortController(), state: { kind: "searching", depth }, slow: isSlow };
    if (!this.asked.size) [this.since, this.work] = [performance.now(), 0];
    this.asked.set(position, question);
    try {
      if (isHere) this.learn(position, await this.local.table(position, depth, question.stop.signal, this.of(position)));
      else await this.hear(question, position, depth);
    } catch (fault) {
      if (question.stop.signal.aborted) return;
      this.faults.set(position, { kind: "fault", text: fault.message });
    }
    if (question.stop.signal.aborted) return;
    this.asked.delete(position);
    this.work += workOf(position, depth);
    if (this.work > 20) this.pace = (performance.now() - this.since) / this.work;
    this.changed();
    this.go();
  }

  /** The lines behind the best moves of the position that is looked at, as many as are wanted. */
  async askLine(position) {
    const known = this.of(position), { local } = this;
    if (!known?.best || known.isLining || !local.engine) return;
    const open = bestOf(known).slice(0, this.lines).find((move) => !known.lines.has(move));
    if (!open) return;
    known.isLining = true;
    try {
      const { line, end } = await local.line(position, known.depth, open);
      known.lines.set(open, line);
      if (open === known.best) known.line = line;
      if (open === known.best && end && known.score.discs === end.discs) known.score.empty = end.empty;
      this.changed();
    } catch {
      known.isFaulty = true; // it was stopped, or left
    }
    known.isLining = false;
    if (!known.isFaulty && this.wanted[0]?.position === position) this.askLine(position);
    known.isFaulty = false;
  }

  /** What was learnt: of two depths the greater counts. */
  learn(position, found) {
    const before = this.known.get(position);
    if (before && found.depth < before.depth) return;
    if (before?.best === found.best && before.line.length > found.line.length) found.line = before.line; // until its own is known
    found.lines ??= new Map();
    this.known.set(position, found);
  }

  /** Asks the service, and again where it can't be reached or has no room, until it has answered. */
  async hear(question, position, depth) {
    const { signal } = question.stop, body = { position, depth, exact: [], steps: false };
    if (!this.service.length && !this.local.engine) throw new Error(this.local.fault?.message ?? "");
    for (let wait = 1; !signal.aborted; wait = Math.min(2 * wait, LONGEST_PAUSE)) {
      let ended = false, kind = "unreachable";
      try {
        await lines("analyse", { method: "POST", body, signal }, (told) => {
          ended ||= told.kind === "done" || told.kind === "fault";
          this.take(question, position, told);
        });
      } catch (fault) {
        if (signal.aborted) return;
        kind = kindOf(fault);
        if (kind === "fault") throw fault;
      }
      if (signal.aborted || ended) return;
      question.state = { kind, again: wait };
      this.changed();
      await pause(wait, signal);
    }
  }

  take(question, position, told) {
    if (told.kind === "step") this.learn(position, stepOf(position, told, this.known.get(position)));
    else if (told.kind === "deepest") Object.assign(this.known.get(position) ?? {}, { last: true });
    else if (told.kind === "fault") this.faults.set(position, told);
    else if (told.kind !== "done") question.state = told;
    this.changed();
  }
}

/** A step of the service: its discs count empty squares for the winner where they are known, and here they count for nobody. */
function stepOf(position, told, before) {
  const bare = ({ discs, empty = 0, ...score }) => (discs === undefined ? score : { ...score, discs: discs - Math.sign(discs) * empty });
  const table = new Map(Object.entries(told.table).map(([move, score]) => [move, bare(score)]));
  if (before?.depth === told.depth) for (const [move, score] of before.table) if (isExact(score) && !isExact(table.get(move))) table.set(move, score);
  const lines = new Map(told.line.length > 1 ? [[told.best, told.line]] : []);
  return { ...told, ends: told.depth >= count(position, "-"), score: { ...bare(told.score), empty: told.score.empty }, table, lines };
}

/** What a fault means: that the service has no room now, refuses the question, or can't be reached. */
function kindOf(fault) {
  if (!(fault instanceof ServiceFault)) return "unreachable";
  if (fault.status === 429 || fault.status === 503) return "busy";
  return fault.status < 500 && fault.status !== 408 ? "fault" : "unreachable";
}

/** What is known of a finished game. */
function ended(position) {
  const score = { sign: "=", ...result(position) };
  return { depth: 0, score: sideOf(position) === "X" ? score : flipped(score), best: "", table: new Map(), line: [], lines: new Map(), ends: true };
}

/** The moves of a position that is known, the best one first. */
export function bestOf(known) {
  const worth = (move) => (move === known.best ? Infinity : rank(known.table.get(move)));
  return known ? [...known.table.keys()].sort((one, two) => (worth(one) === worth(two) ? 0 : worth(two) - worth(one))) : [];
}

/** Whether the lines behind so many of its best moves are known. */
export const isLined = (known, many) => bestOf(known).slice(0, many).every((move) => known.lines.has(move));
