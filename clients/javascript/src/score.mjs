// What a position or a move is worth: points of the evaluation, or discs at the game's end; exactly, or as a bound.
// Beyond 1,184 a value is the end of the game, 2,000 for each disc.

export const GREATEST_EVALUATION = 1184;
export const A_DISC = 2000;
export const GREATEST = 128000;
const BOUNDS = { "=": "", "<": "at most ", ">": "at least " };
const TURNED = { "=": "=", "<": ">", ">": "<" };
const OTHER = { X: "O", O: "X" };

/**
 * A value as the player `side` (X black, O white) sees it. `sign`: = exactly, < at most, > at least. `ends`: it is known to be the game's
 * end. Scores of one side are ordered by their values: `a < b`, and `Score.compare` for sort.
 */
export class Score {
  constructor(value, sign = "=", ends = false, side = "X") {
    if (!Number.isInteger(value) || Math.abs(value) > GREATEST || !(sign in BOUNDS) || !(side in OTHER)) throw new RangeError(`${sign}${value} of ${side} is no score`);
    Object.freeze(Object.assign(this, { value, sign, ends: ends || Math.abs(value) > GREATEST_EVALUATION, side }));
  }

  static compare(one, other) { return one.value - other.value; }
  valueOf() { return this.value; }

  /** `discs` at the game's end, else `points`: what `mover`, `black` and `white` count. */
  get unit() { return this.ends ? "discs" : "points"; }
  /** How many of them the side is ahead. */
  get mover() { return this.ends ? Math.trunc(this.value / A_DISC) + 0 : this.value; }
  /** How many of them black is ahead, and white. */
  get black() { return this.side === "X" ? this.mover : 0 - this.mover; }
  get white() { return 0 - this.black; }
  get isExact() { return this.sign === "="; }
  get isDraw() { return this.ends && this.value === 0 && this.isExact; }
  /** The same, seen by the opponent. */
  flip() { return new Score(0 - this.value, TURNED[this.sign], this.ends, OTHER[this.side]); }

  /** `-3`, `+12 discs`, `draw`, `at most -4`: as the side sees it. */
  toString() {
    const signed = `${this.mover > 0 ? "+" : ""}${this.mover}`;
    if (!this.ends) return BOUNDS[this.sign] + signed;
    return BOUNDS[this.sign] + (this.value === 0 ? "draw" : `${signed} disc${Math.abs(this.mover) === 1 ? "" : "s"}`);
  }
}
