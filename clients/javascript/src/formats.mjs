// The formats of the Othello world, read as Python's `coluwen.formats` reads them, which describes them: clients/formats.jsonl has the rows that both are tried by.
import { PASS, Position } from "./board.mjs";
import { FormatError } from "./faults.mjs";

const SIDES = { B: "X", W: "O" }, SETUP = { AB: "X", AW: "O", AE: "-" }, NAMES = { X: "black", O: "white" };
const BEGINNINGS = { sgf: /^\(\s*;[^)]*?GM\s*\[\s*\d/, ggf: /^(\d+\s+)?\(;/ };

/** What makes a fault at a letter of a text, of which the one at `begin` stands at `place`. */
const faultAt = (place, text, at, begin = 0) => (why, further = 0) => {
  const before = text.slice(begin, at), line = before.split("\n").length - 1;
  const column = line ? at - text.lastIndexOf("\n", at - 1) : at - begin + Math.max(place.column ?? 1, 1);
  return new FormatError(why, { file: place.file, line: Math.max(place.line ?? 1, 1) + line, column: column + further });
};

/** A game's moves, made one after another; passes that aren't written are put in, and what is at fault ends it. */
class Builder {
  constructor(start) { Object.assign(this, { position: start, moves: [], count: 0 }); }
  play(move, fault, side) {
    const said = `move ${this.count + 1}, ${move}`, [first] = this.position.legalMoves();
    if (!first) throw fault(`${said}: the game is over`);
    if (first === PASS && move !== PASS) {
      if (side === this.position.side) throw fault(`${said}: that player can't move`);
      this.#add(PASS);
    } else if (first !== PASS && move === PASS) throw fault(`a pass before move ${this.count + 1}, and the player can move`);
    if (side && side !== this.position.side) throw fault(`${said}: it is the other player's turn`);
    if (!this.position.legalMoves().includes(move)) throw fault(`${said}: ${NAMES[this.position.side]} can't play there`);
    this.#add(move);
  }

  #add(move) {
    this.position = this.position.play(move);
    this.moves.push(move);
    this.count += move === PASS ? 0 : 1;
  }
}

/** The game that `make` builds from where `begin` says and gives heads, and behind it the fault that ended it, if one did. */
function built(begin, make, isGame = () => true) {
  const heads = {};
  let builder = null, start, fault = null;
  try {
    builder = new Builder(start = begin());
    make(builder, heads);
  } catch (one) {
    if (!(one instanceof FormatError)) throw one;
    if (!builder) return [one];
    fault = one;
  }
  const game = { start, moves: builder.moves, black: "", white: "", event: "", date: "", result: null, ...heads, final: builder.position, isWhole: !fault };
  return [...(isGame(builder) ? [game] : []), ...(fault ? [fault] : [])];
}

const narrow = (text) => text.replace(/[\uff01-\uff5e]/g, (one) => String.fromCharCode(one.charCodeAt(0) - 0xfee0)).replace(/\u3000/g, " ").replace(/[\u2212\u2010\u2013\u30fc]/g, "-");
const TOKEN = /([\s,;]+|-(?!-))|(\d{1,3}\s*[.)]+)|([a-hA-H][1-8])|(pass|pa|ps|--)/iy;
const SCORE = /[\s,;:([]*(?:(\d{1,2})\s*[-:]\s*(\d{1,2})|([BbWw])?([+-]\d{1,2}|(?<![a-hA-H])0))(?:\.0+)?[\s,;.)\]]*$/y;
const matched = (pattern, text, at) => { pattern.lastIndex = at; return pattern.exec(text); };

/** What a score behind the moves says; a fault where the game is over otherwise (an empty square is the winner's, or nobody's). */
function resultOf([, black, white, side, more], final, fault) {
  const result = black ? black - white : (/w/i.test(side) ? -1 : 1) * more, bare = [...final.cells].reduce((sum, cell) => sum + (cell === "X") - (cell === "O"), 0);
  const played = bare + final.empties * Math.sign(bare), signed = (number) => (number < 0 ? `${number}` : `+${number}`);
  if (final.isOver && result !== played && result !== bare) throw fault(`the score is said to be ${signed(result)} for black, and is ${signed(played)}`);
  if (Math.abs(result) > 64) throw fault(`a score of ${signed(result)} discs`);
  return result + 0;
}

/** The game of a transcript. */
function transcript(line, place) {
  const text = narrow(line), numbers = [];
  return built(Position.opening, (builder, heads) => {
    for (let at = 0, found; at < text.length; at = TOKEN.lastIndex) {
      const fault = faultAt(place, text, at), score = builder.moves.length ? matched(SCORE, text, at) : null;
      if (score) return void (heads.result = resultOf(score, builder.position, fault));
      if (!(found = matched(TOKEN, text, at))) throw fault(`'${text.slice(at).trim().split(/\s/)[0].slice(0, 20)}' is no move`);
      const after = TOKEN.lastIndex;
      if (found[3] || found[4]) builder.play(found[3]?.toLowerCase() ?? PASS, fault);
      else if (found[2]) {
        const number = parseInt(found[2], 10), last = numbers.at(-1) ?? -1;
        numbers.push(number);
        if (![builder.count + 1, (builder.count + 2) >> 1].includes(number) || number <= last) throw fault(`the number ${number} stands before move ${builder.count + 1}`);
      }
      TOKEN.lastIndex = after;
    }
    if (!builder.moves.length) throw new FormatError("there are no moves", place);
  }, (builder) => builder.moves.length > 0);
}

const TAG = /\s*([A-Za-z]+)\s*\[([^\]]*)\]/y, GGF_END = /\s*;\s*\)/y, PROPERTY = /\s*([A-Za-z]+)((?:\s*\[(?:\\[^]|[^\]\\])*\])+)/y, SIGN = /\s*([;()])/y;
const BOARD = /^\s*8\s+((?:[-.*XxOo]\s*){64})([*XxOo])\s*$/, GGF_MOVE = /^\s*([a-h][1-8]|pass|pa|--)\s*(?:\/.*)?$/i;
const numberOf = (text) => { const found = /^[+-]?\d+(\.\d*)?/.exec(text.trim()); return found ? Number(found[0]) + 0 : null; };
const headsOf = (named, event) => ({ black: named.PB ?? "", white: named.PW ?? "", event: named[event] ?? "", date: named.DT ?? "" });

/** The games of GGF. */
function* ggf(text, place) {
  for (let begin = text.indexOf("(;"); begin >= 0;) {
    const tags = [], here = faultAt(place, text, begin), at = { line: here("").line, column: here("").column, file: place.file };
    let end = begin + 2, found, cut = null;
    for (; (found = matched(TAG, text, end)); end = TAG.lastIndex) tags.push([found[1].toUpperCase(), found[2], faultAt(at, text, TAG.lastIndex - found[2].length - 1, begin)]);
    if (matched(GGF_END, text, end)) end = GGF_END.lastIndex;
    else cut = faultAt(at, text, end, begin)("here is no tag, NAME[value], and no end of the game, ;)");
    const named = Object.fromEntries(tags), wrong = (name, why) => tags.findLast(([one]) => one === name)[2](why);
    yield* built(() => {
      const board = named.BO === undefined ? null : BOARD.exec(named.BO), type = named.TY ?? "8";
      if (!/^(othello|reversi)$/i.test((named.GM ?? "Othello").trim())) throw wrong("GM", `this is a game of ${named.GM}`);
      if (!/^\s*[8s]/.test(type) || type.includes("anti")) throw wrong("TY", `its type is ${type}`);
      if (named.BO !== undefined && !board) throw wrong("BO", "its board isn't one of 8 lines: 8, 64 cells and the side to move");
      return board ? Position.parse(`${board[1]} ${board[2]}`) : Position.opening();
    }, (builder, heads) => {
      Object.assign(heads, headsOf(named, "PC"), { result: numberOf(named.RE ?? "") });
      for (const [name, value, fault] of tags.filter(([one]) => one in SIDES)) {
        const move = GGF_MOVE.exec(value)?.[1].toLowerCase();
        if (!move) throw fault(`'${value}' is no move`);
        builder.play(/\d/.test(move) ? move : PASS, fault, SIDES[name]);
      }
      if (cut) throw cut;
    });
    begin = text.indexOf("(;", end);
  }
}

const squareOf = (value, fault) => {
  const word = value.trim().toLowerCase().replace(/^([a-h])([a-h])$/, (_, column, row) => column + ("abcdefgh".indexOf(row) + 1));
  if (!/^[a-h][1-8]$/.test(word)) throw fault(`'${value}' is no square`);
  return word;
};

/** The opening, or what is set up before the first move of SGF: squares and rectangles, `c3:f6`. */
function startOf(tags) {
  const cells = [...Position.opening().cells], first = tags.findIndex(([name]) => name in SIDES);
  let side = "X";
  for (const [name, value, fault] of first < 0 ? tags : tags.slice(0, first)) {
    if (name === "PL") side = /^\s*w/i.test(value) ? "O" : "X";
    if (!(name in SETUP)) continue;
    const ends = value.split(/:([^]*)/, 2).map((word) => squareOf(word, fault)), [[left, right], [top, bottom]] = [0, 1].map((at) => [ends[0][at], ends.at(-1)[at]].sort());
    cells.forEach((_, at) => { if (left <= "abcdefgh"[at % 8] && "abcdefgh"[at % 8] <= right && top <= (at >> 3) + 1 && (at >> 3) + 1 <= bottom) cells[at] = SETUP[name]; });
  }
  return new Position(cells.join(""), side);
}

/** The games of SGF, GM[2]; of variations the first. */
function* sgf(text, place) {
  for (let begin = text.indexOf("("); begin >= 0;) {
    const tags = [];
    let [end, depth, isFirst, found] = [begin, 0, true];
    while ((found = matched(SIGN, text, end))?.length || (found = matched(PROPERTY, text, end))) {
      end = found.length === 2 ? SIGN.lastIndex : PROPERTY.lastIndex;
      if (found.length === 2) [depth, isFirst] = [depth + ({ "(": 1, ")": -1 }[found[1]] ?? 0), isFirst && found[1] !== ")"];
      if (found.length === 2 && depth === 0) break;
      if (found.length === 3 && isFirst) for (const [, value] of found[2].matchAll(/\[((?:\\[^]|[^\]\\])*)\]/g)) tags.push([found[1].toUpperCase(), value.replace(/\\([^])/g, "$1"), faultAt(place, text, end - found[2].trimStart().length + 1)]);
    }
    const named = Object.fromEntries([...tags].reverse()), result = /^([BW])\+(\d+(?:\.\d+)?)/i.exec((named.RE ?? "").trim());
    const first = (name) => tags.find(([one]) => one === name)?.[2] ?? faultAt(place, text, begin);
    yield* built(() => {
      if ((named.GM ?? "").trim() !== "2") throw first("GM")(`this is no game of Othello, GM[2]: ${named.GM ?? "it says no GM"}`);
      if (!/^\s*8(:8)?\s*$/.test(named.SZ ?? "8")) throw first("SZ")(`its board has ${named.SZ} lines`);
      return startOf(tags);
    }, (builder, heads) => {
      Object.assign(heads, headsOf(named, "EV"), { result: result ? result[2] * (/b/i.test(result[1]) ? 1 : -1) : /^(0|draw)$/i.test((named.RE ?? "").trim()) ? 0 : null });
      for (const [name, value, fault] of tags.filter(([one]) => one in SIDES)) builder.play(/^(pass|pa|tt)?$/i.test(value.trim()) ? PASS : squareOf(value, fault), fault, SIDES[name]);
      if (depth) throw faultAt(place, text, end)("here is no property, NAME[value], and no end of the game, )");
    });
    begin = text.indexOf("(", end);
  }
}

/** The games of a text, and its faults, in their order: transcripts a line, GGF or SGF, by `kind` or by how it begins. A game that has a fault is there with the
 * moves before it (`isWhole` is false), and the fault behind it. */
export function games(text, { file = "", kind } = {}) {
  const plain = text.replace(/^\ufeff/, "").replace(/\r\n?/g, "\n"), found = kind ?? Object.keys(BEGINNINGS).find((one) => BEGINNINGS[one].test(plain.trimStart())) ?? "lines";
  if (found !== "lines") return [...({ ggf, sgf })[found](plain, { file })];
  return plain.split("\n").flatMap((line, at) => (/^\s*([#%].*)?$/.test(line) ? [] : transcript(line, { file, line: at + 1 })));
}
