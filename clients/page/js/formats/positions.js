// Positions as texts: 64 cells and the side to move, as a server's line, an .obf's (with expected moves), rows parted by `/` as in chess's
// FEN, or a board of eight lines as people draw it.

import { Unread } from "./unread.js";

const CELLS = { X: "X", "*": "X", B: "X", "●": "X", O: "O", 0: "O", W: "O", "○": "O", "-": "-", ".": "-", _: "-", "·": "-" };
const cellOf = (letter) => CELLS[letter.toUpperCase()] ?? CELLS[letter];

/** How a line with a position begins: its faults aren't those of moves. */
export const PLACED = /^\s*(\d{1,2} )?([-.*XxOo]{8}|[1-8XxOo*BbWw]+\/)/;

/** The position of a line, with what stands behind it as a comment; `Unread` says what is wrong with it. */
export function lineRead(line) {
  const [text, comment = ""] = line.split(/[%#](.*)/s), [head, ...fields] = text.split(";"), body = head.replace(/^\s*\d{1,2} (?=.{60})/, "");
  for (const field of fields) if (field.trim() && !/^\s*([a-h][1-8]|pass|pa|ps|--)\s*(:\s*[+-]?\d{1,2}\s*)?$/i.test(field)) throw new Unread("scored", { word: field.trim() }, line.indexOf(field) + 1);
  const position = body.includes("/") ? fenRead(body.trim()) : cellsRead(body);
  return { start: position, moves: "", event: comment.trim() };
}

function cellsRead(text) {
  const letters = [...text].map((letter, at) => ({ letter, at })).filter(({ letter }) => !/\s/.test(letter));
  const strange = letters.find(({ letter }) => !cellOf(letter));
  if (strange) throw new Unread("cell", { word: strange.letter }, strange.at + 1);
  if (letters.length !== 65) throw new Unread(letters.length === 64 ? "sideless" : "signs", { number: letters.length }, 1);
  const cells = letters.map(({ letter }) => cellOf(letter));
  if (cells[64] === "-") throw new Unread("sideless", {}, letters[64].at + 1);
  return `${cells.slice(0, 64).join("")} ${cells[64]}`;
}

function fenRead(text) {
  const [board, side = ""] = text.split(/\s+/), rows = board.split("/");
  const cells = rows.map((row) => row.replace(/\d/g, (number) => "-".repeat(Number(number))).split("").map((letter) => cellOf(letter) ?? "?"));
  if (rows.length !== 8) throw new Unread("rows", { number: rows.length }, 1);
  cells.forEach((row, at) => {
    if (row.length !== 8) throw new Unread("row", { row: at + 1, number: row.length }, 1);
    if (row.includes("?")) throw new Unread("fit", { word: rows[at][0], row: at + 1 }, 1);
  });
  if (!/^[XO*BW]$/i.test(side)) throw new Unread("side", { word: side }, board.length + 2);
  return `${cells.flat().join("")} ${cellOf(side)}`;
}

/**
 * The position of a board of eight lines, with numbers and letters at its edges or without; null where the text is none. Who moves may
 * stand behind it (X, O, black, white); else it follows from the number of discs.
 */
export function boardRead(text) {
  const lines = text.split("\n").filter((line) => line.trim() && !/^[\s|+-]*a\s*b\s*c\s*d\s*e\s*f\s*g\s*h[\s|+-]*$/i.test(line));
  const rows = lines.map((line) => [...line.replace(/^\s*[1-8][\s|.]|[\s|][1-8]\s*$/g, "").replace(/[\s|]/g, "")].map(cellOf));
  const isRow = (row) => row.length === 8 && row.every(Boolean), first = rows.findIndex(isRow);
  if (first < 0 || !rows.slice(first, first + 8).every(isRow) || rows.length < first + 8) return null;
  const cells = rows.slice(first, first + 8).flat().join(""), rest = [...lines.slice(0, first), ...lines.slice(first + 8)].join(" ");
  const said = /\b(black|schwarz|x|b)\b|\*/i.test(rest) ? "X" : /\b(white|weiß|weiss|o|w)\b/i.test(rest) ? "O" : null;
  return `${cells} ${said ?? (cells.replaceAll("-", "").length % 2 ? "O" : "X")}`;
}
