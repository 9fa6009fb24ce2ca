// Values without a server: the proved search as WebAssembly, in workers of this process or page.
import { DEEPEST, Rules } from "../../page/engine/module.js";
import { MODULES } from "../../page/engine/modules.js";
import { Engine as Pool, workersHere } from "../../page/engine/pool.js";
import { Analyst, checkOptions, checked, resultOf } from "./analyst.mjs";
import { PASS, Position, SQUARES } from "./board.mjs";
import { Broken, Closed, Late } from "./faults.mjs";

const FOLDER = new URL("../../page/engine/", import.meta.url);
const FOREVER = 2 ** 31 - 1; // milliseconds: a timer has no more, and keeps a process alive
const isNode = globalThis.process?.versions?.node !== undefined && globalThis.document === undefined;

/** The pool of a page, or of a process of node, which its workers don't keep alive. */
async function begun(workers) {
  if (!isNode) return Pool.start({ folder: FOLDER.href, ...(workers && { workers }) });
  const [{ readFile }, { createHash }, threads, os] = await Promise.all([import("node:fs/promises"), import("node:crypto"), import("node:worker_threads"), import("node:os")]);
  const name = "page32.wasm", bytes = await readFile(new URL(name, FOLDER));
  if (`sha256-${createHash("sha256").update(bytes).digest("base64")}` !== MODULES.integrity[name]) throw new Broken(`${name} is another than this package's`);
  const begin = () => {
    const worker = new threads.Worker(new URL("worker.js", FOLDER), { execArgv: [] });
    worker.on("message", (data) => worker.onmessage({ data })).on("error", (fault) => worker.onerror(fault)).unref();
    return worker;
  };
  return new Pool(await Rules.load(bytes), begin, bytes, workers ?? Math.min(os.availableParallelism?.() ?? os.cpus().length, 64));
}

const isCorner = (move) => ["a1", "h1", "a8", "h8"].includes(move);
const closed = () => new Closed("this engine is closed");

/** A position as the mover's discs and the opponent's, bit 0 for a1. */
function wordsOf({ cells, side }) {
  const bits = (isIn) => BigInt(`0b${[...cells].reverse().map((cell) => (isIn(cell) ? 1 : 0)).join("")}`);
  return [bits((cell) => cell === side), bits((cell) => cell !== side && cell !== "-")];
}

/**
 * Answers any number of positions, in node and browsers, by the same calls as `Client`. Options: `workers`, how many search at once (one for each
 * processor; in a browser up to 8), and `timeout`, how many milliseconds a question may take.
 */
export class Engine extends Analyst {
  #pool; #workers; #timeout; #isClosed = false;

  constructor(options = {}) {
    super();
    checkOptions(options, { workers: [1, 256], timeout: [1, 1e9] });
    [this.#workers, this.#timeout] = [options.workers, options.timeout];
  }

  get window() { return 64 * (this.#workers ?? workersHere()); }

  /** The score of a position so many plies deep (0 to 12), and its best move; of the other moves is known that none is worth more. After `timeout`
   * milliseconds it is given up and Late thrown; where `signal` is aborted the same, and its reason. */
  async analyse(position, depth, { timeout = this.#timeout, signal } = {}) {
    const place = checked(position, depth), begin = performance.now();
    signal?.throwIfAborted();
    const { value, choice } = await this.#ask(wordsOf(place), depth, timeout, signal);
    const move = choice === null ? "-" : (SQUARES[choice] ?? PASS);
    const moves = choice === null ? [] : place.legalMoves().sort((one, other) => isCorner(other) - isCorner(one)); // as they are tried
    const entries = moves.map((each) => [each, each === move ? "=" : "<", value]);
    return resultOf(place, depth, { value, move, entries }, performance.now() - begin);
  }

  /** Every depth can be had. */
  async info() { return { grain: DEEPEST, sure: DEEPEST, mostly: DEEPEST, version: null }; }

  /** How many milliseconds a question takes that needs no search. */
  async ping() { return (await this.analyse(Position.opening(), 0, { timeout: FOREVER })).milliseconds; }

  /** Ends the workers. Calls that wait, and later ones, are Closed. */
  async close() {
    this.#isClosed = true;
    (await this.#pool?.catch(() => undefined))?.close();
  }

  async #ask(words, depth, timeout, signal) {
    const stop = new AbortController(), leave = () => stop.abort(signal.reason);
    const timer = setTimeout(() => stop.abort(new Late(`a search took longer than ${timeout} ms`)), timeout ?? FOREVER);
    signal?.addEventListener("abort", leave);
    try {
      if (this.#isClosed) throw closed();
      this.#pool ??= begun(this.#workers);
      return await (await this.#pool).ask(...words, depth, { signal: stop.signal });
    } catch (fault) {
      if (this.#isClosed) throw closed();
      if (stop.signal.aborted) throw stop.signal.reason;
      throw fault instanceof Broken ? fault : new Broken(fault.message);
    } finally {
      clearTimeout(timer);
      signal?.removeEventListener("abort", leave);
    }
  }
}
