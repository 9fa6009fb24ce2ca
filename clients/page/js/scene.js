// What is to be seen, as it follows from the page's state and from what is known of positions: worked out once, and drawn by all views.
//
// The game is the tree's main line, and stays what it is while a variation is looked at: graph, list and mistakes are the game's, and the variation
// stands beside it.

import { TO_THE_END, bestOf } from "./analyst.js";
import { blackScore, judged, mistakesOf } from "./judge.js";
import { count, isOver } from "./rules.js";
import { rank, shownAs } from "./scores.js";

const GAME_DEPTH = 8; // of the whole game, at most
const NOTHING = { of: () => undefined };

/** Why no values are shown: they are hidden by the class, a question or a game that is played; nothing where they aren't. */
function veilOf({ lesson, quiz, match, options, tree }) {
  if (lesson.hidden) return "class";
  if (quiz?.open && tree.current === quiz.questions[quiz.at].node.parent) return "quiz";
  return match && !options.matchValues && !isOver(tree.current.position) ? "match" : "";
}

/** Why nothing is asked: analysis is off, was stopped, or nothing here can give values; nothing where it is asked. */
function restOf({ options, stopped, lesson }, analyst) {
  if (lesson.hidden) return "hidden";
  if (!options.analyse) return "off";
  if (stopped) return "stopped";
  return analyst.isAble ? "" : "engine";
}

/** What is to be known: of the position that is looked at, and of the game with the variation. */
export function wantedOf({ tree, options }) {
  const { depth } = options, most = Math.min(depth, GAME_DEPTH);
  const need = (node, plies) => ({ position: node.position, depth: Math.min(count(node.position, "-") <= TO_THE_END ? 60 : plies, count(node.position, "-")) });
  const line = options.game ? [tree.root, ...tree.main(), ...tree.variation()] : [];
  const before = tree.current.parent && !options.game ? [tree.current.parent] : []; // what the last move was worth
  return [need(tree.current, depth), ...[...before, ...line].filter((node) => node !== tree.current).map((node) => need(node, most))];
}

/** The scene of a state. */
export function sceneOf(state, analyst) {
  const { tree, options, setting } = state, { current } = tree, veil = veilOf(state), known = veil ? NOTHING : analyst;
  const position = setting ? tree.start : current.position, rest = restOf(state, analyst);
  const scene = { state, options, tree, current, position, setting, veil, rest, game: tree.main(), variation: tree.variation(), left: tree.left };
  Object.assign(scene, { of: known.of.bind(known), seen: (score, side) => score && shownAs(options.sign, score, side) });
  scene.known = setting ? undefined : known.of(position);
  scene.progress = rest ? { known: 0, all: 0, left: 0 } : analyst.progress();
  scene.question = analyst.stateOf(position);
  scene.mistake = mistakeOf(state, known);
  return scene;
}

/** A move of the game whose position is looked at, and the moves that are better by what is known, the best first. */
function mistakeOf({ mistake, tree, setting }, analyst) {
  if (!mistake || setting || mistake.parent !== tree.current) return null;
  const known = analyst.of(mistake.parent.position), own = known?.table.get(mistake.move);
  const isBetter = (move) => own && rank(known.table.get(move)) > rank(own);
  const better = bestOf(known).filter((move) => move !== mistake.move && (move === known.best || isBetter(move)));
  return { node: mistake, better, ...judged(mistake, analyst) };
}

/** A point of the graph: {score}, as black sees it. */
export function pointOf(scene, node) {
  const score = blackScore(node, scene);
  return { score: score && { points: score.points, discs: score.discs, side: "X" } };
}

/** The mistakes of the game, in the order of their list, of the side that is chosen. */
export const listOf = (scene) => mistakesOf(scene.game, scene, scene.options.side);
