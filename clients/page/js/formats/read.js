// Games and positions from texts and files of any of the formats: what each is follows from its name and its first letters.
//
// A game is {start, moves, black, white, event, date, result}, all texts; `moves` is what `treeOf` reads. A position is one without moves.
// What can't be read is told with its place; what stands before it, and all other games, are there.

import { read as addressRead, startOf } from "../address.js";
import { START, isOver, result as resultOf } from "../rules.js";
import { tournament } from "../scores.js";
import { treeOf } from "../tree.js";
import * as ggf from "./ggf.js";
import { headsOf, unwrapped } from "./heads.js";
import * as pgn from "./pgn.js";
import { PLACED, boardRead, lineRead } from "./positions.js";
import * as sgf from "./sgf.js";
import { narrow, scored } from "./transcript.js";
import { Unread } from "./unread.js";
import * as wthor from "./wthor.js";

export const LONGEST = 64 << 20; // bytes of a file
export const MOST_LINES = 20000; // of a text
export const LONGEST_TEXT = 16 << 20, LONGEST_LINE = 100000; // letters
const LONGEST_GAME = 200, LONGEST_DRAWN = 4000; // lines of one game, letters of a drawn board

const suffixOf = (name) => name.toLowerCase().split(".").pop();

/** What a generator returns at its end. */
function ended(steps) {
  for (;;) {
    const { done, value } = steps.next();
    if (done) return value;
  }
}

/**
 * All that some files have: {games, faults}. Names of players and tournaments are taken from the .jou and .trn among them. Where there is much it
 * is read in steps, and each gives how many games there are by then.
 */
export function* filesReading(files) {
  const found = { games: [], faults: [] }, names = {};
  const guarded = (name, read) => {
    try {
      read();
    } catch (fault) {
      if (!(fault instanceof Unread)) throw fault;
      found.faults.push(fault.at(0, name));
    }
  };
  for (const { name, bytes } of files) {
    const kind = suffixOf(name);
    if (["jou", "trn"].includes(kind)) guarded(name, () => (names[kind] = wthor.namesRead(bytes, kind)));
  }
  for (const { name, bytes } of files) {
    if (bytes.length > LONGEST) found.faults.push(new Unread("long", { number: LONGEST >> 20 }).at(0, name));
    else if (suffixOf(name) === "wtb") guarded(name, () => found.games.push(...wthor.read(bytes, names.jou, names.trn)));
    else if (!["jou", "trn"].includes(suffixOf(name))) yield* textReading(textOf(bytes), name, found);
  }
  if (!found.games.length && !found.faults.length) found.faults.push(new Unread("nothing").at(0, files[0]?.name));
  return found;
}

/** The text of bytes: UTF-8, or Latin-1 where they aren't that. */
function textOf(bytes) {
  try {
    return new TextDecoder("utf-8", { fatal: true }).decode(bytes);
  } catch {
    return new TextDecoder("latin1").decode(bytes);
  }
}

/** What a text is too large for, before anything of it is read. */
function tooLarge(text) {
  if (text.length > LONGEST_TEXT) throw new Unread("large", { number: (text.length / 1e6).toFixed(1), most: LONGEST_TEXT >> 20 });
  let lines = 1;
  for (let from = 0, end = 0; end >= 0; from = end + 1, lines += 1) {
    end = text.indexOf("\n", from);
    const length = (end < 0 ? text.length : end) - from;
    if (length > LONGEST_LINE) throw new Unread("wide", { number: length, most: LONGEST_LINE }, 0, lines);
  }
  if (lines - 1 > MOST_LINES) throw new Unread("many", { number: lines - 1, most: MOST_LINES });
}

/** The same of a text. */
export function* textReading(whole, name = "", found = { games: [], faults: [] }) {
  try {
    tooLarge(whole);
    for (const game of gamesOf(whole.replace(/^\ufeff/, "").replace(/\r\n?/g, "\n"), name)) {
      (game instanceof Unread ? found.faults : found.games).push(game);
      yield found.games.length;
    }
  } catch (fault) {
    if (!(fault instanceof Unread)) throw fault;
    found.faults.push(fault.at(0, name));
  }
  return found;
}

export const textRead = (text, name) => ended(textReading(text, name));
export const filesRead = (files) => ended(filesReading(files));

/** The games of a text and the faults among them, one after another. */
function* gamesOf(text, name) {
  const address = /^\s*\S*[#?]((?:moves|start)=\S+)\s*$/.exec(text);
  if (!text.trim()) yield new Unread("nothing").at(0, name);
  else if (address) {
    const state = addressRead({ hash: address[1] });
    yield { ...state, start: startOf(state) ?? START, moves: state.moves ?? "" };
  } else if (/^\s*(\d+\s+)?\(;/.test(text)) yield* /\bGM\s*\[\s*(othello|reversi)|\bBO\s*\[/i.test(text) ? ggf.read(text) : sgf.read(text);
  else if (pgn.isPgn(text)) yield* pgnRead(text, name);
  else {
    const inside = unwrapped(text), drawn = boardRead(inside.slice(0, LONGEST_DRAWN));
    if (drawn) yield { start: drawn, moves: "" };
    else yield* linesRead(inside, name);
  }
}

/** The games of transcripts with heads, and their faults. */
function* pgnRead(text, name) {
  for (const { text: moves, at, start, ...info } of pgn.read(text)) {
    const found = { games: [], faults: [] };
    movesRead(narrow(moves), at, found, name, start);
    for (const game of found.games) yield { ...info, ...game, result: game.result || info.result };
    yield* found.faults;
  }
}

/** The games of lines: all of them as one game, from a start in the first where it has one; else each line by itself. */
function* linesRead(told, name) {
  const text = narrow(told).replace(/^\s*[#%].*$/gm, ""), all = text.split("\n").map((line, at) => ({ line, number: at + 1 }));
  const { info, count } = headsOf(all.filter(({ line }) => line.trim()).slice(0, LONGEST_GAME)), lines = all.filter(({ line }) => line.trim()).slice(count);
  const from = (line) => text.split("\n").slice(line.number - 1).join("\n"), found = { games: [], faults: [] };
  if (!lines.length) return void (yield new Unread("nothing").at(0, name));
  if (PLACED.test(lines[0].line)) {
    oneRead(lines[0], found, name);
    const [start] = found.games, rest = lines.slice(1);
    if (start && rest.length && rest.every(({ line }) => !PLACED.test(line))) {
      found.games.pop();
      movesRead(from(rest[0]), rest[0].number, found, name, start.start);
      return yield* [...found.games, ...found.faults];
    }
  } else if (lines.length <= LONGEST_GAME) {
    const single = { games: [], faults: [] };
    movesRead(from(lines[0]), lines[0].number, found, name);
    if (found.faults.length) for (const line of lines) oneRead(line, single, name);
    const isList = found.faults.length && (single.faults.length < found.faults.length || single.games.length > 1), { games, faults } = isList ? single : found;
    return yield* [...games.map((game) => ({ ...info, ...game })), ...faults];
  }
  for (const line of lines) {
    const one = { games: [], faults: [] };
    oneRead(line, one, name);
    yield* [...one.games, ...one.faults];
  }
}

function oneRead({ line, number }, found, name) {
  if (!PLACED.test(line) && /^\s*(?:\(|\d+[.)]\s*)?[a-h][1-8]/i.test(line)) return void movesRead(line, number, found, name);
  try {
    found.games.push(lineRead(line));
  } catch (fault) {
    if (!(fault instanceof Unread)) throw fault;
    const [word] = /\S+/.exec(line);
    found.faults.push((PLACED.test(line) ? fault : new Unread("move", { word: word.slice(0, 20) }, line.indexOf(word) + 1)).at(number, name));
  }
}

/** A game of moves; what stands before a fault is kept, where it is anything. */
function movesRead(text, line, found, name, start = START) {
  const { moves: own, result } = scored(text), { tree, faults } = treeOf(own, start), moves = tree.text(), end = tree.main().at(-1)?.position;
  if (moves || start !== START) found.games.push(result ? { start, moves, result } : { start, moves });
  if (result && !faults.length && isOver(end)) {
    const there = resultOf(end);
    if (![there.discs, tournament(there)].includes(Number(result))) found.faults.push(new Unread("score", { number: result, there: there.discs }, 0, line).at(line, name));
  }
  for (const { kind, word, place, number } of faults) {
    const before = own.slice(0, place).split("\n");
    found.faults.push(new Unread(kind, { word: word.slice(0, 20), number }, before.at(-1).length + 1, before.length + line - 1).at(0, name));
  }
}

/** A game in a line of a list. */
export function titleOf({ black, white, event, date, result, moves }) {
  const names = black || white ? `${black || "?"} – ${white || "?"}` : "";
  return [names, event, date, result && Number(result) > 0 ? `+${Number(result)}` : result, moves.split(" ").slice(0, 6).join(" ").slice(0, 30)].filter(Boolean).join(", ");
}
