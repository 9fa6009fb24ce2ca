// The engine's module: where it comes from, and the rules of the game by it. A board is two words of 64 bits, the mover's discs and the
// opponent's: bit 0 is a1. A choice is a number: a square's own, 0 to 63, or 64 for a pass.
import { MODULES } from "./modules.js";

export const PASS = 64;
export const DEEPEST = 12; // plies that a search looks ahead
const TURNS = ["none", "move", "pass", "over"];
const WORDS = 1n << 64n;

/** The name of the module that runs here: that of a 64-bit memory, or where there is none the one that was lowered to 32 bits. */
export function moduleName() {
  const memory64 = new Uint8Array([0, 97, 115, 109, 1, 0, 0, 0, 5, 3, 1, 4, 1]); // a module with nothing but a 64-bit memory
  return WebAssembly.validate(memory64) ? "page64.wasm" : "page32.wasm";
}

/** The bytes of a module from the folder where it lies, if they have the sum that the build wrote. */
export async function fetchModule(folder, name = moduleName()) {
  const told = await fetch(folder + name, { integrity: MODULES.integrity[name] });
  if (!told.ok) throw new Error(`${name}: status ${told.status}`);
  return new Uint8Array(await told.arrayBuffer());
}

/** Whether two words are a board: each has 64 bits, and none is set in both. A call of the module would take them modulo 2^64. */
export const isBoard = (own, opp) => typeof own === "bigint" && typeof opp === "bigint" && own >= 0n && opp >= 0n && own < WORDS && opp < WORDS && (own & opp) === 0n;

/** The rules of the game, as the module has them. */
export class Rules {
  constructor(exports) {
    this.exports = exports;
  }

  static async load(bytes) {
    return new Rules((await WebAssembly.instantiate(bytes, {})).instance.exports);
  }

  /** How the game stands for the player to move: `move`, `pass` or `over`; `none` where the words are no board. */
  turn(own, opp) {
    return isBoard(own, opp) ? TURNS[this.exports.turn(own, opp)] : "none";
  }

  /** The squares on which the player to move may set a disc, as a word. */
  legal(own, opp) {
    return isBoard(own, opp) ? BigInt.asUintN(64, this.exports.legal_squares(own, opp)) : 0n;
  }

  /** Whether the player to move has this choice. */
  isChoice(own, opp, choice) {
    return isBoard(own, opp) && Number.isInteger(choice) && choice >= 0 && choice <= PASS && Boolean(this.exports.is_choice(own, opp, choice));
  }

  /** The board after a choice, as the other player sees it: the two words; null where the player to move doesn't have it. */
  after(own, opp, choice) {
    if (!this.isChoice(own, opp, choice)) return null;
    return [this.exports.own_after(own, opp, choice), this.exports.opp_after(own, opp, choice)].map((word) => BigInt.asUintN(64, word));
  }
}
