// How scores are worded and compared. A score is {sign, points} or {sign, discs}, seen by the player who moves; `sign` is =, < (at most)
// or > (at least). A score that is shown has the `side` that sees it too.
//
// Points are the opinion of a small evaluation so many plies ahead. Discs are facts: those on the board when the game has ended, where
// empty squares count for nobody. Where the line to the end is known, `empty` says how many squares stay empty on it; the tournament's
// way gives them to the winner.
//
// One rule for all that is shown: a number without a letter is points, as the player sees them who makes the move (or Black, where that is
// chosen); a letter and a number is how many discs that side wins by, whoever looks.

import { other } from "./rules.js";
import { t } from "./texts.js";

const A_DISC = 2000;
const GREATEST_EVALUATION = 1184;
const TURNED = { "=": "=", "<": ">", ">": "<" }, BOUND = { "=": "", "<": "≤", ">": "≥" };
const signed = (number) => (number > 0 ? `+${number}` : String(number));

/** The score of a search's value; `ends` says that every line of it reached the end of the game. */
export function scoreOf(value, ends) {
  const isResult = ends || Math.abs(value) > GREATEST_EVALUATION;
  return isResult ? { sign: "=", discs: Math.round(value / A_DISC) } : { sign: "=", points: value };
}

/** The same score, seen by the other player. */
export function flipped(score) {
  const turned = { ...score, sign: TURNED[score.sign] };
  if (isEnd(score)) turned.discs = 0 - score.discs;
  else turned.points = 0 - score.points;
  if (score.side) turned.side = other(score.side);
  return turned;
}

export const isEnd = (score) => score.discs !== undefined;
export const isExact = (score) => score?.sign === "=";

/** As it is shown, where the player who moves is this side: by the sign of the one who moves, or of Black. */
export function shownAs(sign, score, side) {
  return sign === "black" && side === "O" ? flipped({ ...score, side }) : { ...score, side };
}

/** Seen by black. */
export const forBlack = (score, side) => shownAs("black", score, side);

/** The difference with the empty squares for the winner. */
export const tournament = ({ discs, empty = 0 }) => discs + Math.sign(discs) * empty;

/** Discs, as the side sees them that has more. */
const won = (score) => (score.discs < 0 ? flipped(score) : score);

export const nameOf = (side) => t(side === "X" ? "black" : "white");

/** In words: `White by 10 discs`, `draw`, `at most -4 points for Black`. */
export function words(score) {
  const bounded = (sign, text) => (sign === "=" ? text : t(sign === "<" ? "most" : "least", { text }));
  const ahead = isEnd(score) ? won(score) : score, side = nameOf(ahead.side);
  if (!isEnd(score)) return bounded(score.sign, t("points", { n: score.points, text: signed(score.points), side }));
  return bounded(ahead.sign, ahead.discs ? t("by.side", { side, n: t("unit.discs", { n: ahead.discs }) }) : t("draw"));
}

/** Shortly, for a square or a list: `W+10`, `D`, `≤-4`. */
export function brief(score) {
  if (!isEnd(score)) return BOUND[score.sign] + signed(score.points);
  const { sign, discs, side } = won(score);
  return BOUND[sign] + (discs ? `${t(`letter.${side}`)}+${discs}` : t("brief.draw"));
}

/** From how many points on a side is said to be better, and much better: by the table of docs/VALUES.md. */
export const STEPS = [48, 128];
const GREATEST_SHOWN = 512;

/** What points say: 0 about even, 1 better, 2 much better. */
export const stepOf = ({ points }) => STEPS.filter((least) => Math.abs(points) >= least).length;

/** How far from the middle points stand on a scale from -1 to 1, of which each step has a third. */
export function heightOf({ points }) {
  const ends = [0, ...STEPS, GREATEST_SHOWN], step = stepOf({ points }), more = Math.abs(points) - ends[step];
  return (Math.sign(points) * (step + Math.min(more / (ends[step + 1] - ends[step]), 1))) / (STEPS.length + 1);
}

/** How much of the board is black's, from 0 to 1, for the evaluation's bar: half where it is even. */
export const share = (score) => 0.5 + 0.5 * (isEnd(score) ? Math.tanh(score.discs / 16) : 0.8 * heightOf(score));

/** One number by which scores of a position's moves are ordered. */
export const rank = (score) => (isEnd(score) ? score.discs * A_DISC : score.points);

const TINTS = { points: [1, 9, 25, 61], discs: [1, 4, 8, 16] };

/** How far a move is from the best one, as a tint: 0 the same, 4 far. */
export function tintOf(best, score) {
  if (!best || !score) return null;
  const unit = isEnd(best) && isEnd(score) ? "discs" : "points";
  const lost = unit === "discs" ? best.discs - score.discs : rank(best) - rank(score);
  return TINTS[unit].filter((least) => lost >= least).length;
}

/** From how much on a loss is weak and grave, in discs, and doubtful, in points (by the table of docs/VALUES.md). */
export const LIMITS = { WEAK: 2, GRAVE: 8, DOUBTFUL: 48 };

/**
 * What a move lost beside the best one, both seen by its player: null where that isn't known exactly, else {unit, amount, class}. Discs
 * are lost for certain: their class is good, weak, or grave where many are or the game's result changes. Points are an opinion, which is
 * often wrong: their class is good or `doubtful`, and never more.
 */
export function lossOf(best, score) {
  if (!isExact(best) || !isExact(score) || isEnd(best) !== isEnd(score)) return null;
  const unit = isEnd(best) ? "discs" : "points", amount = Math.max(best[unit] - score[unit], 0), tint = tintOf(best, score);
  if (unit === "points") return { unit, amount, class: amount >= LIMITS.DOUBTFUL ? "doubtful" : "good", tint };
  const changed = Math.sign(best.discs) !== Math.sign(score.discs);
  const kind = changed || amount >= LIMITS.GRAVE ? "grave" : amount >= LIMITS.WEAK ? "weak" : "good";
  return { unit, amount, class: kind, tint };
}

/** A loss in words: `16 points`, `2 discs`. */
export const lossWords = (loss) => (loss?.amount ? t(`unit.${loss.unit}`, { n: loss.amount }) : "");
