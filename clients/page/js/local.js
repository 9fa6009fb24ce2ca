// Values from the proved engine in this browser, and the rules: positions in, scores out.

import { PASS, moduleName } from "../engine/module.js";
import { Engine } from "../engine/pool.js";
import { SQUARES, after, count, isOver, legal, result, settled, useEngine, wordsOf } from "./rules.js";
import { scoreOf } from "./scores.js";

const LONGEST_LINE = 12; // moves

/** The engine is another's; here it speaks of positions. */
export class Local {
  constructor() {
    Object.assign(this, { engine: null, fault: null, module: "" });
  }

  /** Begins it, from its folder or, in a page of one file, from that file (`BUNDLE`). Whether it runs here; where it doesn't, `fault` says why. */
  async begin() {
    try {
      this.module = globalThis.BUNDLE ? "page32.wasm" : moduleName();
      this.engine = await Engine.start(globalThis.BUNDLE);
      useEngine(this.engine.rules);
    } catch (fault) {
      this.fault = fault;
    }
    return Boolean(this.engine);
  }

  /** All moves of a position, so many plies deep, each exactly: {depth, score, best, table, values, ends}. Given up with the signal. `before` is what was found less deep. */
  async table(position, depth, signal, before) {
    const moves = legal(position), ends = depth >= count(position, "-"), guesses = ends ? undefined : before?.values;
    const values = await Promise.all(moves.map((at) => this.moveValue(position, at, depth, signal, guesses?.get(at))));
    const table = new Map(moves.map((at, number) => [SQUARES[at], scoreOf(values[number], ends)]));
    const most = Math.max(...values), best = SQUARES[moves[firstBest(moves, values, most)]];
    return { depth, score: scoreOf(most, ends), best, table, values: new Map(moves.map((at, number) => [at, values[number]])), ends, line: [best] };
  }

  /** What a move is worth to the player who makes it, sooner where a guess is near. */
  async moveValue(position, at, depth, signal, guess) {
    const { value } = await this.engine.ask(...wordsOf(position), depth, { choice: at, signal, guess });
    return value;
  }

  /** The best choice of a position so many plies deep. */
  async best(position, depth, signal) {
    const { choice } = await this.engine.ask(...wordsOf(position), depth, { signal });
    return choice === null || choice === PASS ? "" : SQUARES[choice];
  }

  /** A move with the best ones behind it, to a depth; and where that ends the game, its end as the mover sees it: discs, and squares that stay empty. */
  async line(position, depth, move, signal) {
    const line = [move];
    let here = settled(after(position, SQUARES.indexOf(move))).position;
    for (let left = depth - 1; left > 0 && !isOver(here) && line.length < LONGEST_LINE; left -= 1) {
      line.push(await this.best(here, left, signal));
      here = settled(after(here, SQUARES.indexOf(line.at(-1)))).position;
    }
    const { discs, empty } = result(here);
    return { line, end: isOver(here) ? { discs: position[65] === "X" ? discs : 0 - discs, empty } : null };
  }

  stop() {
    this.engine?.stop();
  }
}

const CORNERS = [0, 7, 56, 63];

/** Of the moves of the greatest value the first in the engine's order: corners, then the others from a1 on. */
function firstBest(moves, values, most) {
  const order = (at) => (CORNERS.includes(at) ? CORNERS.indexOf(at) : 4 + at);
  let found = -1;
  moves.forEach((at, number) => {
    if (values[number] === most && (found < 0 || order(at) < order(moves[found]))) found = number;
  });
  return found;
}
