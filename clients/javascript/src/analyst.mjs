// What a client of a server and an engine of this host have in common: what is built of `analyse`.
import { PASS, Position } from "./board.mjs";
import { DEEPEST } from "./core.mjs";
import { ColuwenError, Late, TooDeep } from "./faults.mjs";
import { Score } from "./score.mjs";

/** What is known of a move: it is worth its score, one ply less deep than the position. */
export class Entry {
  constructor(move, score) { Object.freeze(Object.assign(this, { move, score })); }
  toString() { return `${this.move}${this.score.sign}${this.score.value}`; }
}

/** The result of a search that found { value, move, entries }. */
export function resultOf(position, depth, { value, move, entries }, milliseconds) {
  const scored = (number, sign) => new Score(number, sign, depth >= position.empties, position.side);
  const table = entries.map(([each, sign, number]) => new Entry(each, scored(number, sign)));
  return Object.freeze({ position, depth, score: scored(value, "="), best: move === "-" ? null : move, table: Object.freeze(table), milliseconds });
}

/** A position; FormatError or TypeError where it is none, and RangeError where the depth is none. */
export function checked(position, depth) {
  if (!Number.isInteger(depth) || depth < 0 || depth > DEEPEST) throw new RangeError(`a depth is a whole number from 0 to ${DEEPEST}, and not ${depth}`);
  if (typeof position === "string") return Position.parse(position);
  if (!(position instanceof Position)) throw new TypeError(`${position} is no position`);
  return position;
}

/** TypeError or RangeError where there is another option than these, or a number outside its limits (null where it is no number). */
export function checkOptions(options, limits) {
  for (const [name, value] of Object.entries(options)) {
    if (!(name in limits)) throw new TypeError(`there is no option ${name}`);
    const [least, most] = limits[name] ?? [];
    const fits = typeof value === "number" && value >= least && value <= most && (most > 65536 || Number.isInteger(value));
    if (limits[name] && value !== undefined && !fits) throw new RangeError(`${name} is a number from ${least} to ${most}, and not ${value}`);
  }
}

/** Has `analyse(position, depth, { timeout, signal })`, `info()`, `ping()` and `close()` of its own class. */
export class Analyst extends EventTarget {
  /** How many questions `analyseMany` takes before their answers were taken from it. */
  get window() { return 64; }

  /** Each move's value exactly, the best first, of equals the one from a1 on: one question for each position that a move leads to. */
  async analyseAll(position, depth, how = {}) {
    const place = checked(position, depth);
    if (depth < 1) throw new RangeError("moves are looked at from depth 1 on");
    const [ends, moves, found] = [depth >= place.empties, place.legalMoves(), []];
    const left = moves[0] === PASS ? depth : depth - 1; // a pass uses no ply
    const places = moves.map((move) => place.play(move));
    for await (const { index, result, fault } of this.analyseMany(places, left, { ...how, order: "known" })) {
      if (fault) throw fault instanceof TooDeep ? new TooDeep(depth, fault.greatest && fault.greatest + depth - left) : fault;
      found[index] = new Entry(moves[index], new Score(0 - result.score.value, "=", ends, place.side));
    }
    return found.sort((one, other) => Score.compare(other.score, one.score));
  }

  /** The results of a position 2, 4, 6 .. plies deep and at last `depth` (the greatest that can be had, where none is named), each as soon as it is known, by searches
   * of their own. Late after `timeout` milliseconds in all: its `deepest` is the last result, null where there is none. */
  async* deepen(position, depth, { timeout, signal } = {}) {
    const place = checked(position, depth ?? DEEPEST), aim = Math.min(depth ?? DEEPEST, place.empties), until = performance.now() + (timeout ?? 0);
    for (let step = Math.min(2, aim), found = null; ; step = Math.min(step + 2, aim)) {
      try {
        found = await this.analyse(place, step, { signal, ...(timeout !== undefined && { timeout: Math.max(until - performance.now(), 1) }) });
      } catch (fault) {
        if (fault instanceof TooDeep && depth === undefined) return;
        throw fault instanceof Late ? new Late(`deeper searches took longer than ${timeout} ms`, found) : fault;
      }
      yield found;
      if (step === aim) return;
    }
  }

  /**
   * Of each question of an iterable, asynchronous or not (a position, or [position, depth]), { index, question, result } or { index, question,
   * fault }: in the order in which they are "asked", or as they are "known". No more than `window` are taken ahead of what the caller has taken.
   * `onProgress` is called with { done, faults, total } after each. A fault of one is its own; where the caller leaves, what isn't answered is cancelled.
   */
  async* analyseMany(questions, depth, { order = "asked", window = this.window, onProgress = () => {}, signal, timeout } = {}) {
    if (depth !== undefined) checked(Position.opening(), depth);
    if (!["asked", "known"].includes(order) || !(window >= 1)) throw new RangeError(`answers come in the order "asked" or "known", by a window of 1 at least, and not ${order}, ${window}`);
    signal?.throwIfAborted();
    const source = (questions[Symbol.asyncIterator] ?? questions[Symbol.iterator]).call(questions);
    const [taken, known] = [new Map(), new Set()]; // what isn't given yet, in order, with what gives it up; and what of it is known
    const told = { done: 0, faults: 0, total: questions.length ?? questions.size };
    let [wake, isComing, isOver, broken, count] = [() => {}, false, false, null, 0];
    const leave = () => taken.forEach((stop) => stop.abort(signal.reason));
    const ask = async (question, how) => this.analyse(...(Array.isArray(question) ? question : [question, depth]), how);
    const settled = (one, outcome) => {
      known.add(Object.assign(one, outcome));
      [told.done, told.faults] = [told.done + 1, told.faults + ("fault" in outcome ? 1 : 0)];
      onProgress({ ...told });
      wake();
    };
    const take = async () => {
      isComing = true;
      const { done, value: question } = await source.next();
      [isComing, isOver] = [false, isOver || !!done];
      if (!isOver) {
        const [one, stop] = [{ index: count, question }, new AbortController()];
        count += 1;
        taken.set(one, stop);
        ask(question, { timeout, signal: stop.signal }).then((result) => settled(one, { result }), (fault) => settled(one, { fault }));
      }
      wake();
    };
    signal?.addEventListener("abort", leave);
    try {
      for (;;) {
        signal?.throwIfAborted();
        if (broken) throw broken.reason;
        if (!isComing && !isOver && taken.size < window) take().catch((reason) => { broken = { reason }; wake(); });
        const [next] = order === "asked" ? taken.keys() : known;
        if (known.has(next)) {
          [known, taken].forEach((each) => each.delete(next));
          yield next;
        } else if (isOver && !taken.size) {
          return;
        } else {
          await new Promise((resolve) => { wake = resolve; });
        }
      }
    } finally {
      signal?.removeEventListener("abort", leave);
      for (const stop of taken.values()) stop.abort(new ColuwenError("the answers aren't wanted any more"));
      if (!isOver) source.return?.();
      isOver = true;
    }
  }

  [Symbol.asyncDispose ?? Symbol.for("Symbol.asyncDispose")]() { return this.close(); }
}
