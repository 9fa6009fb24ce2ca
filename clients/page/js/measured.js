// How often what the board advises is so in truth: the tables of docs/VALUES.md, by clients/trial/board/advice.

const PLIES = [2, 4, 6, 8, 10, 12];
/** Of 100 positions with so many empty squares: in how many a search's best move is best in truth, by its plies. */
export const STARS = {
  13: [34, 38, 43, 47, 49, 51],
  14: [39, 42, 42, 49, 52, 51],
  15: [34, 35, 42, 45, 46, 51],
  16: [40, 44, 48, 52, 54, 53],
  18: [40, 43, 47, 59, 56, 57],
};
/** Of 100 moves, how many lose discs in truth: doubtful ones, those 1 to 11 points behind the best, and the best. */
export const LOST = { far: 92, near: 75, star: 55 };
/** Of 100 positions, in how many the side that is ahead by the evaluation wins by best play, by the step. */
export const WINS = { even: 54, better: 75, much: 95 };

/** How often a star is right: {share, empty}, by the nearest row of the table that isn't fuller than the board. */
export function starOf(empties, depth) {
  const rows = Object.keys(STARS).map(Number), own = rows.filter((row) => row <= empties), empty = Math.max(rows[0], ...own);
  return { empty, share: STARS[empty][Math.max(0, PLIES.findLastIndex((plies) => plies <= depth))] };
}
