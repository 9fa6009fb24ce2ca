// The sheet for print: the game's names, its position and its moves as diagrams, and where it is
// asked for what the moves are worth, and the mistakes.

import { turnText } from "./board.js";
import { $, made } from "./dom.js";
import { judged, mistakesOf } from "./judge.js";
import { helpText, rowText, totalsText } from "./mistakes.js";
import { MARKS, pairsOf } from "./moves.js";
import { openingOf } from "./openings.js";
import { picture } from "./picture.js";
import { brief } from "./scores.js";
import { t } from "./texts.js";
import { whyOf } from "./why.js";

/** What is told of a game in one line. */
export function namesText({ black, white, event, date, result }) {
  const names = black || white ? `${black || "?"} – ${white || "?"}` : "";
  return [names, event, date, result].filter(Boolean).join(", ");
}

function movesPart(scene, answers) {
  const text = (node) => {
    const { score, loss } = judged(node, scene);
    return answers ? `${node.move}${node.glyph || MARKS[loss?.class] || ""}${score ? ` (${brief(scene.seen(score, node.side))})` : ""}` : node.move;
  };
  const pair = ({ X, O }) => made("p", {}, made("b", {}, `${(X ?? O).ply}. `), X ? text(X) : O.parent.passed ? t("pass") : "…", O ? `  ${text(O)}` : X.passed ? `  ${t("pass")}` : "");
  return made("div", { class: "moves" }, ...pairsOf(scene.game).map(pair));
}

/** What was worth what: comments, mistakes and sums. */
function answersOf(scene) {
  const { game } = scene, rows = mistakesOf(game, scene), list = rows.map((row) => made("li", {}, `${MARKS[row.loss.class]} ${rowText(row, scene)}`));
  const comments = game.filter(({ comment }) => comment).map((node) => made("li", {}, `${node.ply}. ${node.move}: ${node.comment}`));
  const deepest = Math.max(0, ...game.map((node) => judged(node, scene)).filter(({ loss }) => loss?.unit === "points").map(({ depth }) => depth));
  return [
    ...(comments.length ? [made("ol", {}, ...comments)] : []),
    ...(game.length ? [made("p", {}, whyOf(scene).text), ...totalsText(scene).map((text) => made("p", {}, text))] : []),
    ...(rows.length ? [made("h2", {}, t("mistakes")), made("ol", {}, ...list), made("p", {}, helpText(scene.options))] : []),
    made("p", {}, t("sheet.depth", { n: deepest })),
  ];
}

/** Fills the sheet: position, game and moves, and where answers are asked for what they are worth. */
export function fillSheet(scene) {
  const { state, game: line, current, known, seen, options } = scene, turn = turnText(current.position), answers = options.answers && !scene.veil;
  const numbers = new Map(line.map((node) => [node.move, node.ply]));
  const figure = (what, text) => made("figure", {}, picture({ ...what, ink: true }), made("figcaption", {}, text));
  const worth = answers ? { table: known?.table, seen, best: known?.best } : {};
  const now = figure({ position: current.position, last: current.move, ...worth }, current.parent ? t("sheet.position", { ply: current.ply, turn }) : t("sheet.start", { turn }));
  const whole = line.length ? [figure({ position: line.at(-1).position, numbers }, t("sheet.game"))] : [];
  $("sheet").replaceChildren(
    made("h1", {}, namesText(state.info) || t("title")),
    made("p", {}, openingOf(line[Math.min(line.length, 20) - 1])),
    made("div", { class: "diagrams" }, now, ...whole),
    ...(line.length ? [made("h2", {}, t("moves")), movesPart(scene, answers)] : []),
    ...(answers ? answersOf(scene) : []),
  );
}
