// The engine: workers that search by the proved module, one more of them than search at once, so that where a search is given up, by ending
// its worker, another one answers at once.
//
//     const engine = await Engine.start();
//     const { value, choice } = await engine.ask(own, opp, depth, { signal });        // a board's value and best choice
//     const { value: worth } = await engine.ask(own, opp, depth, { choice: 19 });     // what one of its choices is worth
import { DEEPEST, Rules, fetchModule, isBoard } from "./module.js";

const GRACE = 20; // milliseconds that a search which is given up may still take, before its worker is ended
const TRIES = 3; // of a search whose workers are lost
const MOST_WORKERS = 8;
const GREATEST = 128000; // of values

/** How many searches run at once where nobody says it: one for each processor, up to eight. */
export const workersHere = () => Math.min(Math.max(globalThis.navigator?.hardwareConcurrency ?? 1, 1), MOST_WORKERS);

const given = (why) => new DOMException(why, "AbortError");

/** A worker's script, as a page with `require-trusted-types-for 'script'` may name it: this one alone. */
function trusted(address) {
  const createScriptURL = (text) => {
    if (text !== address) throw new TypeError("a foreign script");
    return text;
  };
  return globalThis.trustedTypes ? globalThis.trustedTypes.createPolicy("engine", { createScriptURL }).createScriptURL(address) : address;
}

export class Engine {
  /** `begin` begins a worker, as `{ postMessage, terminate, onmessage, onerror }`; `bytes` are the module's; `places` searches run at once. */
  constructor(rules, begin, bytes, places) {
    Object.assign(this, { rules, begin, bytes, places, closed: "", waiting: [] });
    this.hands = Array.from({ length: places + 1 }, () => this.hire());
  }

  /**
   * The engine of a page: of the folder where worker.js and the modules lie (an address that ends with /, by the page's own), or of a
   * module's bytes and the worker's text, as a page in one file has them.
   */
  static async start({ folder = "engine/", bytes, script, workers = workersHere() } = {}) {
    const module = bytes ?? (await fetchModule(folder)), rules = await Rules.load(module);
    const address = script === undefined ? `${folder}worker.js` : URL.createObjectURL(new Blob([script], { type: "text/javascript" }));
    const allowed = trusted(new URL(address, document.baseURI).href);
    const engine = new Engine(rules, () => new Worker(allowed), module, workers);
    await Promise.race(engine.hands.map((hand) => hand.ready));
    return engine;
  }

  /** A new worker; it is of use once it has the module. */
  hire() {
    const hand = { worker: this.begin(), task: null, isReady: false };
    hand.ready = new Promise((resolve, reject) => Object.assign(hand, { begun: resolve, failed: reject }));
    hand.ready.catch(() => {});
    hand.worker.onmessage = ({ data }) => this.hear(hand, data);
    hand.worker.onerror = (event) => this.lose(hand, event?.message || "the worker could not be loaded");
    hand.worker.postMessage({ bytes: this.bytes });
    return hand;
  }

  /**
   * A board's minimax value so many plies deep (0 to 12) and its best choice (null where there is none), or, where `choice` names one of its
   * choices, what that is worth (1 to 12 plies deep), sooner where `guess` is near that. Values are seen by the player to move. `signal` gives
   * it up: it rejects at once with an AbortError. `RangeError` where the words are no board, the board has no such choice, or a guess is no value.
   */
  ask(own, opp, depth, { signal, choice, guess } = {}) {
    return new Promise((resolve, reject) => {
      if (!isBoard(own, opp)) throw new RangeError("two words of 64 bits that share none are a board");
      if (!Number.isInteger(depth) || depth < (choice === undefined ? 0 : 1) || depth > DEEPEST) throw new RangeError(`a depth is a number of plies up to ${DEEPEST}`);
      if (choice !== undefined && !this.rules.isChoice(own, opp, choice)) throw new RangeError("the player to move doesn't have this choice");
      if (guess !== undefined && !(Number.isInteger(guess) && Math.abs(guess) <= GREATEST)) throw new RangeError(`a guess is a whole number up to ${GREATEST}`);
      if (this.closed) throw new Error(this.closed);
      if (signal?.aborted) throw given("given up");
      const stop = () => this.giveUp(task, given("given up"));
      const task = { asked: { own, opp, depth, choice, guess }, resolve, reject, tries: 0, hand: null, isOver: false, quiet: () => signal?.removeEventListener("abort", stop) };
      signal?.addEventListener("abort", stop);
      this.waiting.push(task);
      this.assign();
    });
  }

  /** Gives up all that is asked. */
  stop() {
    for (const task of [...this.waiting, ...this.hands.map((hand) => hand.task)]) if (task) this.giveUp(task, given("stopped"));
  }

  /** Ends all workers, and what is asked. */
  close(why = "the engine is closed") {
    if (this.closed) return;
    this.closed = why;
    for (const task of [...this.waiting, ...this.hands.map((hand) => hand.task)]) if (task) this.settle(task, () => task.reject(new Error(why)));
    this.waiting = [];
    for (const hand of this.hands) {
      hand.worker.terminate();
      hand.failed(new Error(why));
    }
  }

  /** Gives what waits to those who are free. One that was given up and isn't over yet counts no more. */
  assign() {
    for (const hand of this.hands) {
      if (this.waiting.length === 0 || this.hands.filter(({ task }) => task && !task.isOver).length >= this.places) return;
      if (!hand.isReady || hand.task) continue;
      const task = this.waiting.shift();
      Object.assign(task, { hand, tries: task.tries + 1 });
      hand.task = task;
      hand.worker.postMessage(task.asked);
    }
  }

  hear(hand, told) {
    if (!this.hands.includes(hand) || this.closed) return;
    if (told.fault !== undefined) return this.lose(hand, told.fault);
    if (told.ready) {
      hand.isReady = true;
      hand.begun();
    } else {
      const { task } = hand;
      hand.task = null;
      this.settle(task, () => task.resolve(told));
    }
    this.assign();
  }

  settle(task, by) {
    if (task.isOver) return;
    task.isOver = true;
    task.quiet();
    by();
  }

  /** The task is over at once; its worker has a moment more to end by itself. */
  giveUp(task, reason) {
    this.settle(task, () => task.reject(reason));
    this.waiting = this.waiting.filter((each) => each !== task);
    const { hand } = task;
    if (hand?.task !== task) return;
    setTimeout(() => {
      if (hand.task === task) this.replace(hand);
    }, GRACE);
    this.assign();
  }

  replace(hand) {
    const at = this.hands.indexOf(hand);
    if (at < 0 || this.closed) return;
    hand.worker.terminate();
    this.hands[at] = this.hire();
    this.assign();
  }

  /** A worker that fails is replaced, and what it searched is asked again; what fails each time is a fault. One that can't even begin ends all. */
  lose(hand, why) {
    if (this.closed || !this.hands.includes(hand)) return;
    if (!hand.isReady) return this.close(why);
    const { task } = hand;
    if (task && !task.isOver) {
      if (task.tries < TRIES) this.waiting.unshift(task);
      else this.settle(task, () => task.reject(new Error(why)));
    }
    this.replace(hand);
  }
}
