// The rules of Othello: positions, legal moves, and what a move flips. A position is written with 66 letters: 64 cells from a1 to h8, row
// by row (X black, O white, - empty), a space, and the side to move. A move is a square, `d3`, or `pass`; each call takes it as that word, as a `Move`, or as a
// number, 0 to 63 for a1 to h8 and 64 for a pass.
import { FormatError, IllegalMove } from "./faults.mjs";

export const START = `${"-".repeat(27)}OX${"-".repeat(6)}XO${"-".repeat(27)}`;
export const SQUARES = [..."12345678"].flatMap((row) => [..."abcdefgh"].map((column) => column + row));
export const PASS = "pass";
const WORDS = [...SQUARES, PASS]; // of a move's number
const OTHER = { X: "O", O: "X" };
const CELLS = { X: "X", x: "X", "*": "X", O: "O", o: "O", "-": "-", ".": "-" };
const WAYS = [-1, 0, 1].flatMap((down) => [-1, 0, 1].map((right) => [down, right])).filter(([down, right]) => down || right);

/** Of each square those (0 to 63) that lie on its eight ways to the edge, the nearest first. */
const RAYS = SQUARES.map((_, square) => WAYS.map(([down, right]) => [1, 2, 3, 4, 5, 6, 7]
  .map((step) => [(square >> 3) + step * down, (square & 7) + step * right])
  .filter((place) => place.every((at) => at >= 0 && at < 8)).map(([row, column]) => 8 * row + column)));

/** The squares whose discs a move of the side flips. */
function flipsOf(cells, side, square) {
  return RAYS[square].flatMap((ray) => {
    const end = ray.findIndex((at) => cells[at] !== OTHER[side]);
    return end > 0 && cells[ray[end]] === side ? ray.slice(0, end) : [];
  });
}

const squaresOf = (cells, side) => SQUARES.filter((_, at) => cells[at] === "-" && flipsOf(cells, side, at).length);

/** A move: its `word`, and its number, `square`. IllegalMove where there is no such square. */
export class Move {
  constructor(move) {
    const word = wordOf(move);
    if (!WORDS.includes(word)) throw new IllegalMove(`${word} is no move: a square, or pass`);
    Object.freeze(Object.assign(this, { word, square: WORDS.indexOf(word) }));
  }
  toString() { return this.word; }
}

/** A move's word; whether there is such a one the rules say. */
function wordOf(move) {
  if (move instanceof Move) return move.word;
  if (typeof move === "string") return move.toLowerCase();
  if (!Number.isInteger(move) || !(move in WORDS)) throw new IllegalMove(`${String(move)} is no move: a word, or a number from 0 to 64`);
  return WORDS[move];
}

/** 64 cells and the side to move. It can't be changed: `play` gives another. */
export class Position {
  constructor(cells = START, side = "X") {
    if (!/^[XO-]{64}$/.test(cells) || !(side in OTHER)) throw new RangeError(`${cells} and ${side} are no position`);
    Object.freeze(Object.assign(this, { cells, side }));
  }

  static opening() { return new Position(); }

  /** The position of a text of 66 letters: X, x or * is black, O or o white, - or . empty; spaces may stand between them. FormatError says which column is at fault. */
  static parse(text) {
    const letters = [...text], fault = (why, at) => new FormatError(why, { column: at + 1 });
    let found = "";
    letters.forEach((letter, at) => {
      if (/\s/.test(letter)) return;
      const cell = Object.hasOwn(CELLS, letter) ? CELLS[letter] : null;
      if (!cell) throw fault(`'${letter}' spells no cell`, at);
      if (found.length === 64 && cell === "-") throw fault("behind the 64 cells stands no side to move, X or O", at);
      if (found.length === 65) throw fault("behind the side to move stands more", at);
      found += cell;
    });
    if (found.length !== 65) throw fault(`a position has 64 cells and the side to move, and here are ${found.length} signs`, letters.length);
    return new Position(found.slice(0, 64), found[64]);
  }

  get text() { return `${this.cells} ${this.side}`; }
  toString() { return this.text; }
  get empties() { return [...this.cells].filter((cell) => cell === "-").length; }

  /** The moves, from a1 to h8; `pass` alone where only the opponent can move; none where the game is over. */
  legalMoves() {
    const squares = squaresOf(this.cells, this.side);
    return squares.length || !squaresOf(this.cells, OTHER[this.side]).length ? squares : [PASS];
  }

  get isOver() { return this.legalMoves().length === 0; }

  /** The position after a move; IllegalMove where the rules don't allow it. */
  play(move) {
    const { word } = new Move(move);
    if (!this.legalMoves().includes(word)) throw new IllegalMove(`${word} isn't legal here`);
    if (word === PASS) return new Position(this.cells, OTHER[this.side]);
    const square = SQUARES.indexOf(word);
    const turned = new Set([square, ...flipsOf(this.cells, this.side, square)]);
    return new Position([...this.cells].map((cell, at) => (turned.has(at) ? this.side : cell)).join(""), OTHER[this.side]);
  }

  equals(other) { return other instanceof Position && other.text === this.text; }

  /** The same with the colours exchanged. */
  flip() { return new Position([...this.cells].map((cell) => OTHER[cell] ?? cell).join(""), OTHER[this.side]); }
}
