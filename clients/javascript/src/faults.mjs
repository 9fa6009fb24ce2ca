// What can go wrong, each by a class of its own; all are a ColuwenError.

export const FAULTS = Object.freeze({
  10: "no segment is left", 11: "no node is left", 13: "256 jobs were asked", 17: "there is no such job", 29: "HELLO again",
  14: "64 tenants are there, or what is asked for isn't left", 19: "there was no memory", 22: "the line is too long",
  21: "an unknown word, or another number of words", 23: "not a number, or outside the limits", 28: "no HELLO yet",
  24: "the position hasn't 66 bytes", 25: "a byte of the position spells no cell", 27: "the depth is over 12",
  26: "no space and side follow the cells", 20: "fewer segments or nodes than are reserved, or no more of either",
  30: "nobody has this token", 31: "too many lines in a time" });

/** Whatever this package throws of its own. */
export class ColuwenError extends Error {
  get name() { return this.constructor.name; }
}

/** The server answered `ERR number`. */
export class Refused extends ColuwenError {
  constructor(number) {
    super(`ERR ${number}: ${FAULTS[number] ?? "a fault that this client does not know"}`);
    this.number = number;
  }
}

/** The server can't be reached, or was lost. */
export class Unreachable extends ColuwenError {}

/** What this session would read next isn't known to be the answer to what it asks: a new session is needed. */
export class Broken extends ColuwenError {}

/** The server didn't answer in time what it answers at once: a new session is needed. */
export class Silent extends ColuwenError {}

/** A job took longer than it was given, and was cancelled. `deepest`: the last result of those that `deepen` has given; else null. */
export class Late extends ColuwenError {
  constructor(text, deepest = null) {
    super(text);
    this.deepest = deepest;
  }
}

/** The client or the session was closed: nothing more is sent. */
export class Closed extends ColuwenError {}

/** A position can't be searched so deep at the server's grain; `greatest` is a depth that can be had of each position. */
export class TooDeep extends ColuwenError {
  constructor(depth, greatest) {
    super(`depth ${depth} can't be had at this server's grain; depth ${greatest} can`);
    [this.depth, this.greatest] = [depth, greatest];
  }
}

/** A move that the rules don't allow at its position. */
export class IllegalMove extends ColuwenError {}

/** A text that can't be read: `text` says why, and `file`, `line` and `column` where (from 1; 0 where there is none). */
export class FormatError extends ColuwenError {
  constructor(text, { file = "", line = 0, column = 0 } = {}) {
    super(`${[file || "text", ...[line, column].filter(Boolean)].join(":")}: ${text}`);
    Object.assign(this, { text, file, line, column });
  }
}
