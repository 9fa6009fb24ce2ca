// The board: 64 buttons, one of which is reached by Tab; arrow keys go from square to square. Nothing is drawn anew that stays as it is.

import { made, put, shape } from "./dom.js";
import { SQUARES, count, isOver, legal, sideOf } from "./rules.js";
import { brief, lossOf, lossWords, nameOf, tintOf, words } from "./scores.js";
import { t } from "./texts.js";

const STEPS = { ArrowLeft: [-1, 0], ArrowRight: [1, 0], ArrowUp: [0, -1], ArrowDown: [0, 1] };
const LEAST_WIDTH = 1.7; // in letters' heights, so that short numbers aren't larger than others
const NUMBERED = 3; // moves of the best line that are shown

const widths = new Map();
let paper = null;

/** How wide a text of a square is, in letters' heights, as the browser measures it. */
function widthOf(text, family) {
  if (!widths.has(text)) {
    paper ??= document.createElement("canvas").getContext("2d");
    paper.font = `600 100px ${family}`;
    widths.set(text, paper.measureText(text).width / 100);
  }
  return widths.get(text);
}

export class Board {
  /** Shows a board in an element; `chosen` is called with a square that was clicked or pressed, `told` with what a number of the line is. */
  constructor(element, chosen, told = () => {}) {
    Object.assign(this, { element, told });
    this.signs = new Array(64).fill("");
    this.squares = SQUARES.map((name, at) => {
      const button = made("button", { type: "button", class: "square", tabindex: -1, "data-square": name, "aria-label": name });
      // a click by a mouse takes no focus, so that arrow keys go on through the game
      button.addEventListener("mousedown", (event) => {
        event.preventDefault();
        if (!this.hasFocus) document.activeElement?.blur();
      });
      button.addEventListener("click", () => chosen(name));
      button.addEventListener("focus", () => this.reach(at));
      return button;
    });
    this.marks = shape("svg", { class: "marks", viewBox: "0 0 8 8", "aria-hidden": "true" });
    this.turn(0);
    this.reach(SQUARES.indexOf("d3"));
    element.addEventListener("keydown", (event) => this.key(event));
  }

  /** Lays the board out, so many quarter turns from where a1 is at the top left. */
  turn(turned) {
    if (this.turned === turned) return;
    this.turned = turned;
    const order = Array.from({ length: 64 }, (_, place) => squareAt(place, turned)), focused = document.activeElement;
    const edge = (text) => made("span", { class: "edge", "aria-hidden": "true" }, text), of = (place, step) => [SQUARES[order[place]], SQUARES[order[place + step]]];
    const letter = ([one, other]) => (one[0] === other[0] ? one[0] : one[1]);
    const parts = [edge(""), ...Array.from({ length: 8 }, (_, column) => edge(letter(of(column, 8))))];
    for (let row = 0; row < 8; row += 1) parts.push(edge(letter(of(8 * row, 1))), ...order.slice(8 * row, 8 * row + 8).map((at) => this.squares[at]));
    const points = [[2, 2], [6, 2], [2, 6], [6, 6]].map(([x, y]) => shape("circle", { class: "point", cx: x, cy: y, r: 0.07 }));
    this.element.replaceChildren(...parts, shape("svg", { class: "marks", viewBox: "0 0 8 8", "aria-hidden": "true" }, ...points), this.marks);
    this.places = SQUARES.map((_, at) => order.indexOf(at));
    this.line = undefined;
    if (this.squares.includes(focused)) focused.focus();
  }

  /** The square that Tab reaches. */
  reach(at) {
    if (this.reached !== undefined) this.squares[this.reached].tabIndex = -1;
    this.reached = at;
    this.squares[at].tabIndex = 0;
  }

  key(event) {
    const step = STEPS[event.key];
    if (!step || event.altKey || event.ctrlKey || event.metaKey) return;
    const place = this.places[this.reached], column = (place % 8) + step[0], row = (place >> 3) + step[1];
    event.preventDefault();
    event.stopPropagation();
    if (column >= 0 && column < 8 && row >= 0 && row < 8) this.squares[squareAt(8 * row + column, this.turned)].focus();
  }

  get hasFocus() {
    return this.element.contains(document.activeElement);
  }

  /**
   * Shows a position: `last` is the square of the move that led here, `next` {move, ply} the one that was played here, `table` what is known of
   * each move (a map from square to score), `seen` gives these the sign that is chosen, `best` is the best one, and `certain` says that this is a
   * fact; `better` are those that are better than a mistake `next`, `line` is the best line; `setting` says that the start is set up, `hint` names a
   * square that is pointed at, `tinted` says whether squares are tinted, `turned` how the board lies.
   */
  show(what) {
    const { position, last = "", next = null, table = new Map(), seen = (score, side) => ({ ...score, side }) } = what;
    const { best = "", certain = false, better = null, line = [], setting = false, hint = "", tinted = true } = what;
    this.turn(what.turned ?? 0);
    const free = new Set(setting ? [] : legal(position)), family = (this.family ??= getComputedStyle(this.element).fontFamily); // asked once, as each asking lays out the page
    let widest = LEAST_WIDTH;
    SQUARES.forEach((name, at) => {
      const own = free.has(at) ? table.get(name) : undefined, score = own && seen(own, sideOf(position)), text = score ? brief(score) : "";
      if (text) widest = Math.max(widest, widthOf(text, family));
      const square = { name, cell: position[at], legal: free.has(at), score, text, last: name === last, hint: name === hint, setting };
      Object.assign(square, { next: name === next?.move ? next.ply : 0, best: name === best, thought: name === best && !certain });
      square.number = line.indexOf(name) + 1;
      square.tint = tinted && own ? tintOf(table.get(best), own) : null;
      square.slip = Boolean(better) && square.next > 0;
      square.better = Boolean(better?.includes(name));
      square.lost = square.slip ? lossWords(lossOf(table.get(best), own)) : "";
      const sign = JSON.stringify(square);
      if (this.signs[at] !== sign) this.showSquare(this.squares[at], square);
      this.signs[at] = sign;
    });
    if (widest !== this.widest) this.element.style.setProperty("--widest", widest.toFixed(3));
    this.widest = widest;
    this.showLine(line.filter((move) => SQUARES.includes(move)).slice(0, NUMBERED));
  }

  showSquare(button, square) {
    const { name, cell, score, text } = square, parts = [], label = [name];
    if (cell !== "-") {
      parts.push(made("span", { class: `disc ${cell === "X" ? "black" : "white"}`, "aria-hidden": "true" }, square.last ? made("span", { class: "last" }) : ""));
      label.push(nameOf(cell));
      if (square.last) label.push(t("square.last"));
    } else if (square.legal) {
      label.push(t("square.legal"));
      if (square.best) label.push(t(square.thought ? "square.thought" : "square.best"));
      if (square.better && !square.best) label.push(t("square.better"));
      if (square.next) label.push(square.slip ? t("square.mistake", { lost: square.lost || t("lost.unknown") }) : t("square.next"));
      if (square.hint) label.push(t("square.hint"));
      if (score) label.push(t("square.value", { text: words(score) }));
    } else label.push(t("square.empty"));
    if (square.number > 1 && square.number <= NUMBERED) label.push(t("square.number", { n: square.number }));
    if (text) parts.push(made("span", { class: "score", "aria-hidden": "true" }, text));
    else if (square.legal) parts.push(made("span", { class: "dot", "aria-hidden": "true" }));
    if (square.legal && square.best) parts.push(made("span", { class: "star", "aria-hidden": "true" }, square.thought ? "☆" : "★"));
    if (square.legal && square.next) parts.push(made("span", { class: "next", "aria-hidden": "true" }, String(square.next)));
    const kinds = ["legal", "best", "thought", "better", "next", "slip", "hint"].filter((kind) => square.legal && square[kind]);
    button.className = ["square", ...kinds, ...(square.tint === null ? [] : [`tint${square.tint}`])].join(" ");
    button.setAttribute("aria-label", label.join(", "));
    button.setAttribute("aria-disabled", String(!square.legal && !square.setting));
    button.replaceChildren(...parts);
  }

  /** Numbers the moves of a line but the first, whose square says what it is worth. */
  showLine(line) {
    const sign = line.join();
    if (this.line === sign) return;
    this.line = sign;
    const parts = line.slice(1).flatMap((move, at) => {
      const place = this.places[SQUARES.indexOf(move)], x = (place % 8) + 0.82, y = (place >> 3) + 0.82;
      const text = t("line.number", { n: at + 2, move }), knob = { class: "knob", cx: x, cy: y, r: 0.14, onclick: () => this.told(text) };
      return [shape("circle", knob, shape("title", {}, text)), shape("text", { x, y: y + 0.07, "text-anchor": "middle" }, String(at + 2))];
    });
    this.marks.replaceChildren(...parts);
  }
}

/** The square that lies at a place, counted from the top left, of a board that was turned so many quarters clockwise. */
function squareAt(place, turned) {
  let [row, column] = [place >> 3, place % 8];
  for (let quarter = 0; quarter < turned; quarter += 1) [row, column] = [7 - column, row];
  return 8 * row + column;
}

/** Whose turn it is, and how many discs there are, in words. */
export function turnText(position) {
  const discs = t("discs", { black: count(position, "X"), white: count(position, "O") });
  return `${isOver(position) ? t("over") : t(sideOf(position) === "X" ? "turn.black" : "turn.white")} · ${discs}`;
}

/** The evaluation's bar: black's share of it, and the value at the end of whoever is ahead. */
export class Bar {
  constructor(element) {
    this.part = made("span", { class: "part" });
    this.ends = { X: made("span", { class: "black" }), O: made("span", { class: "white" }) };
    this.element = element;
    element.append(this.part, this.ends.O, this.ends.X);
  }

  /** Shows black's share (0 to 1) and what it says; nothing is known where it says nothing. */
  show(share, text, label) {
    this.element.style.setProperty("--share", share.toFixed(4));
    for (const [side, end] of Object.entries(this.ends)) {
      const shown = share >= 0.5 === (side === "X") ? text : "";
      if (end.textContent !== shown) end.textContent = shown;
    }
    put(this.element, "aria-label", label);
  }
}
