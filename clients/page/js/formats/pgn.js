// Transcripts with heads as PGN has them, of one game or many: [Name "value"], and moves behind them. Event, Black, White, Date and Result are read, and
// FEN, where the game begins.

import { START } from "../rules.js";
import { lineRead } from "./positions.js";
import { told } from "./transcript.js";
import { Unread } from "./unread.js";

const HEADS = /(?:[ \t]*\[\s*\w+\s*"(?:\\.|[^"\\])*"\s*\]\s*)+/g;
const HEAD = /\[\s*(\w+)\s*"((?:\\.|[^"\\])*)"\s*\]/g;

export const isPgn = (text) => /^\s*\[\s*\w+\s*"/.test(text);

/** The games of a text, with the `text` of their moves and the line where that begins, `at`; an `Unread` where a start isn't one. */
export function* read(text) {
  const begins = [...text.matchAll(HEADS)];
  let [line, counted] = [1, 0];
  const lineAt = (place) => {
    for (; counted < place; counted += 1) line += text[counted] === "\n" ? 1 : 0;
    return line;
  };
  for (const [number, found] of begins.entries()) {
    const from = found.index + found[0].length, said = Object.fromEntries([...found[0].matchAll(HEAD)].map(([, name, value]) => [name.toLowerCase(), value.replace(/\\(.)/g, "$1")]));
    const first = lineAt(found.index);
    const { black = "", white = "", event = "", date = "" } = said, info = { black, white, event, date: date.replaceAll(".", "-"), result: told(said.result ?? "") };
    const start = said.fen ? startOf(said.fen, first) : START;
    yield { ...info, start, at: lineAt(from), text: text.slice(from, begins[number + 1]?.index ?? text.length) };
  }
}

function startOf(text, line) {
  try {
    return lineRead(text).start;
  } catch (fault) {
    if (!(fault instanceof Unread)) throw fault;
    throw fault.at(line);
  }
}
