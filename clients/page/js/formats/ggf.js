// GGF, the format of games of the server GGS and of NBoard: one game or many in a text.
//
//     (;GM[Othello]PC[place]DT[2003.12.15]PB[one]PW[other]RE[+4]TY[8]BO[8 ---..---- *]B[d3]W[c5];)

import { START, positionOf } from "../rules.js";
import { Unread, placeOf } from "./unread.js";

const SIDES = { B: "X", W: "O" };

/** The games of a text; what is wrong ends it, and is thrown behind the games before it. */
export function* read(text) {
  let at = 0;
  const skip = (pattern) => {
    pattern.lastIndex = at;
    const found = pattern.exec(text);
    if (found) at = pattern.lastIndex;
    return found;
  };
  const fault = (name, words) => {
    const { line, column } = placeOf(text, at);
    return new Unread(name, words, column, line);
  };
  for (;;) {
    skip(/\s*(\d+\s+)?/y);
    if (at >= text.length) return;
    if (!skip(/\(;/y)) throw fault("begin");
    const tags = [];
    for (let found; (found = skip(/\s*([A-Za-z]+)\s*\[([^\]]*)\]/y)); ) tags.push([found[1].toUpperCase(), found[2].trim()]);
    if (!skip(/\s*;\s*\)/y)) throw fault("tag");
    yield gameOf(tags, fault);
  }
}

function gameOf(tags, fault) {
  const named = Object.fromEntries(tags.filter(([name]) => !SIDES[name])), moves = tags.filter(([name]) => SIDES[name]);
  if (!tags.length) throw fault("tagless");
  if (!/^(othello|reversi)$/i.test(named.GM ?? "Othello")) throw fault("other", { word: named.GM });
  if (!/^(8|s)/.test(named.TY ?? "8") || /anti/.test(named.TY ?? "")) throw fault("type", { word: named.TY });
  const start = named.BO ? positionOf(named.BO.replace(/^8\s/, "")) : START;
  if (!start) throw fault("board");
  const words = moves.map(([, text]) => text.split("/")[0].toLowerCase());
  const strange = words.find((word) => !/^([a-h][1-8]|pass|pa|--)$/.test(word));
  if (strange !== undefined) throw fault("move", { word: strange });
  const result = Number.parseFloat(named.RE);
  return { start, moves: words.join(" "), black: named.PB ?? "", white: named.PW ?? "", event: named.PC ?? "", date: (named.DT ?? "").replaceAll(".", "-"), result: Number.isFinite(result) ? String(result) : "" };
}

/** A game as a text; `line` is its moves as nodes, a pass behind a node where it says so. */
export function write({ start, line, black = "", white = "", event = "", date = "", result = "" }) {
  const clean = (text) => text.replace(/[\][;]/g, " ");
  const board = `8 ${start.slice(0, 64).match(/.{8}/g).join(" ").replaceAll("X", "*")} ${start[65] === "X" ? "*" : "O"}`;
  const moves = line.flatMap((node) => [`${node.side === "X" ? "B" : "W"}[${node.move}]`, ...(node.passed ? [`${node.side === "X" ? "W" : "B"}[pa]`] : [])]);
  const tags = [["GM", "Othello"], ["PC", event], ["DT", date.replaceAll("-", ".")], ["PB", black], ["PW", white], ["RE", result], ["TY", "8"], ["BO", board]];
  return `(;${tags.filter(([, text]) => text).map(([name, text]) => `${name}[${clean(text)}]`).join("")}${moves.join("")};)\n`;
}
