// What moves of a game were worth, by what is known of the positions before them; and where the game was lost.

import { TO_THE_END } from "./analyst.js";
import { count, isOver, sideOf } from "./rules.js";
import { forBlack, lossOf } from "./scores.js";

/**
 * What a move is worth and lost: {best, bestMove, score, loss, depth}, seen by its player; nothing where that isn't known. Discs are lost
 * for certain only where all was searched to the end of the game.
 */
export function judged(node, analyst) {
  const known = node.parent && analyst.of(node.parent.position);
  if (!known) return {};
  const best = known.table.get(known.best), score = known.table.get(node.move), loss = lossOf(best, score);
  return { best, bestMove: known.best, score, loss: loss?.unit === "discs" && !known.ends ? null : loss, depth: known.depth };
}

/** The score of a node's position for black: what is known of it, else of the move that led to it where that is exact. */
export function blackScore(node, analyst) {
  const known = analyst.of(node.position);
  if (known?.score) return forBlack(known.score, sideOf(node.position));
  const { score } = judged(node, analyst);
  return score?.sign === "=" ? forBlack(score, node.side) : null;
}

/** The mistakes of a line in its order, of one side or of both: those in discs are facts, those in points opinions. */
export function mistakesOf(line, analyst, side = "") {
  const all = line.filter((node) => !side || node.side === side).map((node) => ({ node, ...judged(node, analyst) }));
  return all.filter(({ loss }) => loss && loss.class !== "good");
}

/** What a player's moves lost: discs in all, in how many moves, how many are weak and grave; and of the others how many are doubtful. */
export function totalsOf(line, side, analyst) {
  const losses = line.filter((node) => node.side === side).map((node) => judged(node, analyst).loss).filter(Boolean);
  const known = (unit) => losses.filter((loss) => loss.unit === unit), number = (kind) => losses.filter((loss) => loss.class === kind).length;
  const discs = known("discs").reduce((all, loss) => all + loss.amount, 0);
  return { discs, weak: number("weak"), grave: number("grave"), doubtful: number("doubtful"), inDiscs: known("discs").length, inPoints: known("points").length };
}

/** The results for black by best play, from the first position on that is searched to the end; none where one isn't yet. */
export function resultsOf(nodes, analyst) {
  const first = nodes.findIndex(({ position }) => count(position, "-") <= TO_THE_END || isOver(position));
  const known = first < 0 ? [] : nodes.slice(first).map(({ position }) => [analyst.of(position), sideOf(position)]);
  const isAll = known.every(([one]) => one?.ends);
  return { first, results: isAll ? known.map(([one, side]) => forBlack(one.score, side).discs) : null };
}

/** The move of a line, of one side or of both, that fell most by the evaluation; nothing where none is doubtful. */
function fallOf(line, analyst, side) {
  const falls = mistakesOf(line, analyst, side).filter(({ loss }) => loss.unit === "points");
  return falls.reduce((most, one) => (one.loss.amount > (most?.loss.amount ?? 0) ? one : most), null)?.node;
}

/**
 * Where a game was lost: {kind, node, loser, before, after}, with results for black in discs. Its kind is `turn` where a move gave away what
 * wasn't lost, `draw` where one gave a win away and the game is drawn; `before` and `never` where the game was lost for certain before anything
 * is exact (with the greatest fall by the evaluation, or without one); `even` where it always was; `open` and `calm` where nothing is exact yet;
 * and `waits` where not all is searched.
 */
export function verdictOf(root, line, analyst) {
  const nodes = [root, ...line], { first, results } = resultsOf(nodes, analyst);
  if (first < 0) {
    const node = fallOf(line, analyst);
    return { kind: node ? "open" : line.every((one) => judged(one, analyst).loss !== undefined) ? "calm" : "waits", node };
  }
  if (!results) return { kind: "waits" };
  const sign = Math.sign(results.at(-1)), loser = sign > 0 ? "O" : "X", is = (result) => Math.sign(result) === sign;
  const at = results.findLastIndex((result, number) => number > 0 && is(result) && !is(results[number - 1]));
  if (at > 0) return { kind: sign ? "turn" : "draw", node: nodes[first + at], before: results[at - 1], after: results[at] };
  if (!sign) return { kind: "even" };
  const node = fallOf(line.slice(0, first), analyst, loser);
  return { kind: node ? "before" : "never", node, loser, after: results[0] };
}
