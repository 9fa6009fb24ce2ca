// SGF, the Smart Game Format, of Othello (GM[2]): a tree of nodes with properties, as board programs write it. Squares are a letter and a
// number (`f5`); two letters, of which the second is the row's from the top, are read too.

import { START } from "../rules.js";
import { Unread, placeOf } from "./unread.js";

const GLYPHS = { TE: "!", BM: "?", DO: "?!", IT: "!?" };
const WRITTEN = { "!!": "TE[2]", "!": "TE[1]", "!?": "IT[]", "?!": "DO[]", "?": "BM[1]", "??": "BM[2]" };
const PASS = /^(|tt|pa|pass|--)$/i;

const squareOf = (word) => (/^[a-h][1-8]$/i.test(word) ? word.toLowerCase() : /^[a-h]{2}$/i.test(word) ? word[0].toLowerCase() + (word[1].toLowerCase().charCodeAt(0) - 96) : word);

/** The games of a text. */
export function* read(text) {
  const pattern = /\s*(?:([();])|([A-Za-z]+)((?:\s*\[(?:[^\]\\]|\\[\s\S])*\])+))/y, end = text.trimEnd().length;
  let at = 0, open = [], before = 0, line = 1;
  while (at < end) {
    pattern.lastIndex = at;
    const found = pattern.exec(text), tree = open.at(-1), [, sign, name, values] = found ?? [];
    if (!found || (sign !== "(" && !tree) || (name && !tree.nodes.length)) {
      const { line, column } = placeOf(text, at);
      throw new Unread("sgf", {}, column, line);
    }
    for (; before < at; before += 1) line += text[before] === "\n" ? 1 : 0;
    at = pattern.lastIndex;
    if (sign === "(") open.push({ nodes: [], trees: [], line });
    else if (sign === ";") tree.nodes.push({});
    else if (name) tree.nodes.at(-1)[name.replace(/[a-z]/g, "")] = [...values.matchAll(/\[((?:[^\]\\]|\\[\s\S])*)\]/g)].map(([, value]) => value.replace(/\\([\s\S])/g, "$1").trim());
    else {
      open.pop();
      if (open.length) open.at(-1).trees.push(tree);
      else yield gameOf(tree);
    }
  }
  if (open.length) throw new Unread("sgf", {}, 0, open[0].line);
}

function gameOf(tree) {
  const [root = {}] = tree.nodes, info = (name) => root[name]?.[0] ?? "", cells = [...START.slice(0, 64)];
  if (info("GM") !== "2") throw new Unread("other", { word: info("GM") }, 0, tree.line);
  if (root.SZ && info("SZ") !== "8") throw new Unread("lines", { number: info("SZ") }, 0, tree.line);
  for (const [name, cell] of [["AE", "-"], ["AB", "X"], ["AW", "O"]])
    for (const value of root[name] ?? []) cells["abcdefgh".indexOf(squareOf(value)[0]) + 8 * (Number(squareOf(value)[1]) - 1)] = cell;
  const first = tree.nodes.find((node) => node.B || node.W), side = root.PL ? (/^(w|2)/i.test(info("PL")) ? "O" : "X") : first?.W ? "O" : "X";
  return { start: `${cells.join("")} ${side}`, moves: words(tree).join(" "), black: info("PB"), white: info("PW"), event: info("EV"), date: info("DT"), result: resultOf(info("RE")) };
}

/** The moves of a tree as words, a variation behind the move that it replaces. */
function words(tree) {
  const own = tree.nodes.map(wordOf).filter(Boolean), [main, ...others] = tree.trees.map(words).filter((one) => one.length);
  return main ? [...own, main[0], ...others.map((one) => `(${one.join(" ")})`), ...main.slice(1)] : own;
}

function wordOf(node) {
  const [move] = node.B ?? node.W ?? [], name = Object.keys(GLYPHS).find((one) => node[one]);
  if (move === undefined) return "";
  if (PASS.test(move)) return "pass";
  const glyph = !name ? "" : node[name][0] === "2" && GLYPHS[name].length === 1 ? GLYPHS[name].repeat(2) : GLYPHS[name];
  return `${squareOf(move)}${glyph}${node.C ? `{${node.C[0].replace(/[{}]/g, "")}}` : ""}`;
}

/** `B+12` as how many discs black has more. */
function resultOf(text) {
  const found = /^([BW])\+(\d+)/i.exec(text);
  return found ? String((found[1].toUpperCase() === "B" ? 1 : -1) * Number(found[2])) : /^(0|draw)/i.test(text) ? "0" : "";
}

const escaped = (text) => text.replace(/[\]\\]/g, "\\$&");

/** A game with its variations and notes; `root` is the first node of its tree. */
export function write({ start, root, black = "", white = "", event = "", date = "", result = "" }) {
  const number = Number.parseInt(result, 10), told = Number.isNaN(number) ? "" : number ? `${number > 0 ? "B" : "W"}+${Math.abs(number)}` : "0";
  const names = [["PB", black], ["PW", white], ["EV", event], ["DT", date], ["RE", told]].filter(([, text]) => text).map(([name, text]) => `${name}[${escaped(text)}]`);
  const squares = (cell) => [...start.slice(0, 64)].flatMap((one, at) => (one === cell ? [`[${"abcdefgh"[at % 8]}${1 + (at >> 3)}]`] : [])).join("");
  const setup = ["AB", "AW"].map((name, at) => [name, squares("XO"[at])]).filter(([, list]) => list).map(([name, list]) => name + list);
  const node = (one) => {
    const passed = one.passed ? `;${one.side === "X" ? "W" : "B"}[]` : "";
    return `;${one.side === "X" ? "B" : "W"}[${one.move}]${WRITTEN[one.glyph] ?? ""}${one.comment ? `C[${escaped(one.comment)}]` : ""}${passed}${below(one)}`;
  };
  const below = (one) => (one.children.length === 1 ? node(one.children[0]) : one.children.map((child) => `(${node(child)})`).join(""));
  return `(;FF[4]GM[2]SZ[8]${names.join("")}${setup.join("")}PL[${start[65] === "X" ? "B" : "W"}]${below(root)})\n`;
}
