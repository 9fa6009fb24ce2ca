// WTHOR's .wtb, the data base of tournament games, with the names that its .jou (players) and .trn (tournaments) have.
//
// Each file begins with 16 bytes: when it was made (century, year, month, day), how many games (4 bytes) and names (2) it has, the year of its
// games (2), the board's size, and three more. Numbers have the low byte first. A game has 68 bytes: the numbers of its tournament, of black
// and of white (2 each), black's discs at the end, the theoretical ones, and 60 moves, ten times the row and the column; 0 behind the last.
// Passes aren't written. An empty square at the end counts for the winner. A name of a .jou has 20 bytes, of a .trn 26.

import { START, isOver, result as resultOf } from "../rules.js";
import { Unread } from "./unread.js";

const HEAD = 16, RECORD = 68, NAMES = { jou: 20, trn: 26 };
const latin = (bytes) => String.fromCharCode(...bytes);

function headOf(bytes) {
  if (bytes.length < HEAD) throw new Unread("head", { most: HEAD, number: bytes.length });
  const view = new DataView(bytes.buffer, bytes.byteOffset);
  return { games: view.getUint32(4, true), names: view.getUint16(8, true), year: view.getUint16(10, true), size: bytes[12] };
}

/** The names of a .jou or .trn. */
export function namesRead(bytes, kind) {
  const { names } = headOf(bytes), size = NAMES[kind];
  if (bytes.length !== HEAD + size * names) throw new Unread("names", { number: names, most: HEAD + size * names, there: bytes.length });
  return Array.from({ length: names }, (_, at) => latin(bytes.subarray(HEAD + size * at, HEAD + size * (at + 1))).split("\0")[0]);
}

/** The games of a .wtb, each as it is asked for. */
export function read(bytes, players = [], tournaments = []) {
  const { games, size, year } = headOf(bytes), view = new DataView(bytes.buffer, bytes.byteOffset);
  if (size !== 0 && size !== 8) throw new Unread("lines", { number: size });
  if (bytes.length !== HEAD + RECORD * games) throw new Unread("games", { number: games, most: HEAD + RECORD * games, there: bytes.length });
  return Array.from({ length: games }, (_, at) => {
    const from = HEAD + RECORD * at, number = (offset) => view.getUint16(from + offset, true), codes = bytes.subarray(from + 8, from + RECORD);
    const name = (names, one) => names[one] ?? `#${one}`;
    return { start: START, moves: wordsOf(codes), event: name(tournaments, number(0)), black: name(players, number(2)), white: name(players, number(4)), date: String(year), result: String(2 * bytes[from + 6] - 64) };
  });
}

/** A code as a square; one that is none stays a number, and is refused when the game is played. */
function wordsOf(codes) {
  const last = codes.findLastIndex((code) => code !== 0);
  return Array.from(codes.subarray(0, last + 1), (code) => (code % 10 >= 1 && code % 10 <= 8 && code > 10 && code < 89 ? "abcdefgh"[(code % 10) - 1] + Math.floor(code / 10) : `?${code}`)).join(" ");
}

function head(games, names, year) {
  const bytes = new Uint8Array(HEAD), view = new DataView(bytes.buffer), today = new Date();
  bytes.set([Math.floor(today.getFullYear() / 100), today.getFullYear() % 100, today.getMonth() + 1, today.getDate()]);
  view.setUint32(4, games, true);
  view.setUint16(8, names, true);
  view.setUint16(10, year, true);
  bytes[12] = games ? 8 : 0;
  return bytes;
}

const joined = (...parts) => Uint8Array.from(parts.flatMap((part) => [...part]));
const padded = (name, size) => Uint8Array.from({ length: size }, (_, at) => (at < size - 1 && at < name.length ? (name.charCodeAt(at) < 256 ? name.charCodeAt(at) : 63) : 0));

/** A game from the opening as the three files {wtb, jou, trn}. */
export function write({ start, line, black = "", white = "", event = "", date = "", result = "" }) {
  if (start !== START || line.length > 60) throw new Unread("wthor");
  const end = line.at(-1)?.position, { discs, empty } = end && isOver(end) ? resultOf(end) : { discs: Number.parseInt(result, 10) || 0, empty: 0 };
  const names = [...new Set([black, white])], record = new Uint8Array(RECORD), blacks = 32 + (discs + Math.sign(discs) * empty) / 2;
  record.set([0, 0, names.indexOf(black), 0, names.indexOf(white), 0, blacks, blacks]);
  record.set(line.map(({ move }) => 10 * Number(move[1]) + "abcdefgh".indexOf(move[0]) + 1), 8);
  return {
    wtb: joined(head(1, 0, Number.parseInt(date, 10) || new Date().getFullYear()), record),
    jou: joined(head(0, names.length, 0), ...names.map((name) => padded(name, NAMES.jou))),
    trn: joined(head(0, 1, 0), padded(event, NAMES.trn)),
  };
}
