// The rules of the game. Positions are the 66 characters of the server's lines: 64 cells from a1 to h8, a space, who moves.
//
// Legal moves and the board after a move come from the proved engine as soon as it is loaded (`useEngine`); until then, and where a
// browser can't run it, from the lines below. The trial compares both, game by game.

export const SQUARES = Array.from({ length: 64 }, (_, at) => "abcdefgh"[at % 8] + (1 + (at >> 3)));
export const START = `${"-".repeat(27)}OX${"-".repeat(6)}XO${"-".repeat(27)} X`;
const DIRECTIONS = [-1, 0, 1].flatMap((down) => [-1, 0, 1].map((right) => [down, right])).filter(([down, right]) => down || right);
const MOST_KEPT = 5000; // positions whose legal moves are remembered

let engine = null, kept = new Map();

/** Takes the rules from an engine: `legal(own, opp)` gives the legal squares as a word, `after(own, opp, square)` the two words after it. */
export function useEngine(rules) {
  engine = rules;
  kept = new Map();
}

export const other = (side) => (side === "X" ? "O" : "X");
export const sideOf = (position) => position[65];
export const count = (position, disc) => position.slice(0, 64).split(disc).length - 1;
export const turned = (position) => position.slice(0, 65) + other(sideOf(position));

/** A position as two words of 64 bits: the discs of the player who moves, and the opponent's; bit 0 is a1. */
export function wordsOf(position) {
  const side = sideOf(position), halves = [0, 0, 0, 0]; // of the player's word, low and high, and of the opponent's
  for (let at = 0; at < 64; at += 1) {
    if (position[at] !== "-") halves[(position[at] === side ? 0 : 2) + (at >> 5)] |= 1 << (at & 31);
  }
  const [own, ownHigh, opp, oppHigh] = halves.map((half) => BigInt(half >>> 0));
  return [own | (ownHigh << 32n), opp | (oppHigh << 32n)];
}

/** Whether each square is in a word. */
function within(word) {
  const halves = [Number(word & 0xffffffffn), Number(word >> 32n)];
  return (at) => ((halves[at >> 5] >>> (at & 31)) & 1) === 1;
}

/** The discs that the player who moves would flip by a disc on this square. */
function flips(position, at) {
  const side = sideOf(position), found = [];
  if (position[at] !== "-") return found;
  for (const [down, right] of DIRECTIONS) {
    const run = [];
    let [row, column] = [(at >> 3) + down, (at % 8) + right];
    const inside = () => row >= 0 && row < 8 && column >= 0 && column < 8;
    for (; inside() && position[8 * row + column] === other(side); row += down, column += right) run.push(8 * row + column);
    if (inside() && position[8 * row + column] === side) found.push(...run);
  }
  return found;
}

/** The squares where the player who moves may play. */
export function legal(position) {
  const there = kept.get(position);
  if (there) return there;
  const isLegal = engine ? within(engine.legal(...wordsOf(position))) : (at) => flips(position, at).length > 0;
  const found = SQUARES.map((_, at) => at).filter(isLegal);
  if (kept.size >= MOST_KEPT) kept = new Map();
  kept.set(position, found);
  return found;
}

/** The same position with the move of a player who can move, if one can: a player who can't passes. */
export function settled(position) {
  const passed = legal(position).length === 0 && legal(turned(position)).length > 0;
  return { position: passed ? turned(position) : position, passed };
}

export const isOver = (position) => legal(position).length === 0 && legal(turned(position)).length === 0;

/** The position after a legal move, before any pass; null where the move isn't legal. */
export function after(position, at) {
  if (!legal(position).includes(at)) return null;
  const side = sideOf(position), cells = [...position.slice(0, 64)];
  if (engine) {
    const isOwn = within(engine.after(...wordsOf(position), at)[0]); // seen by the other player
    cells.forEach((cell, square) => cell !== "-" && (cells[square] = isOwn(square) ? other(side) : side));
    cells[at] = side;
  } else for (const square of [at, ...flips(position, at)]) cells[square] = side;
  return `${cells.join("")} ${other(side)}`;
}

/** The position after a legal move with the one who can move, and whether the other player passed; null where the move isn't legal. */
export function played(position, at) {
  const behind = after(position, at);
  return behind && settled(behind);
}

/** How many discs black has more than white, and how many squares are empty. */
export function result(position) {
  const black = count(position, "X"), white = count(position, "O");
  return { discs: black - white, empty: 64 - black - white };
}

/** A position from a text of 64 squares and a side, with spaces anywhere: X, x and * are black, O and o white, - and . empty. */
export function positionOf(text) {
  const cells = text.replace(/\s/g, "").toUpperCase().replaceAll("*", "X").replaceAll(".", "-");
  return /^[XO-]{64}[XO]$/.test(cells) ? `${cells.slice(0, 64)} ${cells[64]}` : null;
}

/** The eight pictures of a square under the board's symmetries, of which `at` is mapped by the one of this number. */
export function mirrored(at, number) {
  let [row, column] = [at >> 3, at % 8];
  if (number & 1) row = 7 - row;
  if (number & 2) column = 7 - column;
  if (number & 4) [row, column] = [column, row];
  return 8 * row + column;
}
