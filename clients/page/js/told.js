// What is told of the position that is looked at: whose turn it is, what it is worth and by what that is judged, the best line, and how the
// analysis stands. Each has its place, whether it says something or not, so that nothing jumps.

import { bestOf, isLined } from "./analyst.js";
import { turnText } from "./board.js";
import { $, put, reveal, say } from "./dom.js";
import { blackScore } from "./judge.js";
import { starOf } from "./measured.js";
import { count, isOver, sideOf } from "./rules.js";
import { brief, forBlack, isEnd, nameOf, share, stepOf, tournament } from "./scores.js";
import { t } from "./texts.js";

/** A score for black as a sentence: who wins and by how much, or by the evaluation is better. */
export function sentence(score) {
  const amount = score.discs ?? score.points, n = Math.abs(amount), side = nameOf(amount > 0 ? "X" : "O");
  if (!isEnd(score)) return t(`value.${stepOf(score)}`, { side });
  return amount ? t("value.wins", { side, n: t("unit.discs", { n }) }) : t("value.draw");
}

/** What a value is: an opinion so many plies deep and how often its star is right, or a fact, and how empty squares count. */
function noteOf(position, known, score) {
  const { empty } = known.score, empties = count(position, "-"), text = isEnd(score) ? sentence({ discs: tournament({ ...score, empty }) }) : "";
  if (isOver(position)) return empty && score.discs ? t("note.over", { n: empty, text }) : t("note.whole");
  if (!isEnd(score)) {
    const star = starOf(empties, known.depth);
    return [t("note.points", { n: known.depth }), t(star.empty < empties ? "note.star.early" : "note.star", star)].join(" ");
  }
  if (empty === 0) return t("note.full");
  if (empty && score.discs) return t("note.empty", { n: empty, text });
  return known.depth >= empties ? t("note.end") : t("note.sure", { n: known.depth });
}

/** The best moves, each with its value and its line; where one is shown, its line alone. */
function linesOf({ known, seen, position }, many) {
  const lines = bestOf(known).slice(0, many).map((move) => [move, (known.lines.get(move) ?? (move === known.best ? known.line : [move])).join(" ")]);
  if (many === 1) return [t("line.best", { line: lines[0][1] })];
  return lines.map(([move, line]) => `${brief(seen(known.table.get(move), sideOf(position)))}: ${line}`);
}

/** Why there are no values, as a sentence; nothing where they come. */
export function restText({ rest, veil }, analyst) {
  if (veil === "class") return t("state.hidden");
  return rest === "engine" ? t("fault.engine", { text: analyst.local.fault?.message ?? analyst.local.engine?.closed ?? "" }) : rest ? t(`state.${rest}`) : "";
}

export class Told {
  constructor(analyst, bar) {
    Object.assign(this, { analyst, bar });
  }

  show(scene) {
    const { position, known, setting, current, options } = scene, score = known && forBlack(known.score, sideOf(position));
    say($("turn"), turnText(position));
    say($("value"), !score ? "" : isOver(position) ? t("value.over", { text: sentence(score) }) : sentence(score));
    say($("value-note"), score ? noteOf(position, known, score) : "");
    put(document.querySelector(".told"), "class", options.three ? "told three" : "told");
    say($("line"), known?.best ? linesOf(scene, options.three ? 3 : 1).join("\n") : "");
    this.showBar(scene, scene.veil || setting ? null : (score ?? blackScore(current, scene)));
    say($("state"), setting ? "" : this.stateText(scene));
  }

  /** Discs by their winner, and of an opinion who is better. */
  showBar({ options }, score) {
    const isBetter = score && !isEnd(score) && stepOf(score), ahead = isBetter ? t(`letter.${score.points > 0 ? "X" : "O"}`) : "";
    reveal($("bar"), options.bar);
    const text = !score ? "" : isEnd(score) ? brief(score).replace("+", "\u200b+") : ahead, label = score ? t("bar.known", { text: sentence(score) }) : t("bar.none");
    this.bar.show(score ? share(score) : 0.5, text, label);
  }

  stateText(scene) {
    const { position, known, question, progress, veil, options } = scene, { local, service } = this.analyst;
    const rest = restText(scene, this.analyst), isDone = progress.known === progress.all;
    if (rest) return rest;
    if (question?.kind === "fault") return t("state.fault", { text: question.text ?? "" });
    if (!local.engine && !service.length && !known) return isOver(position) ? "" : t("state.begins");
    if (question?.kind === "waiting") return t("state.waiting", { n: question.ahead });
    if (question && question.kind !== "searching") return t(`state.${question.kind}`, { n: Math.ceil(question.again ?? 1) });
    if (veil && !isDone) return t("state.veiled");
    if (question) return this.withTime(t("state.searching", { n: question.depth }), progress.known + 1 >= progress.all ? progress.left : 0);
    if (veil) return t("state.veiled");
    if (!isDone) return this.withTime(t("state.game", { known: progress.known, all: progress.all }), progress.left);
    if (!known || isOver(position)) return "";
    if (local.engine && !isLined(known, options.three ? 3 : 1)) return t("state.line", { n: known.depth });
    return isEnd(known.score) && known.depth >= count(position, "-") ? t("state.end") : t("state.done", { n: known.depth });
  }

  withTime(text, left) {
    return left >= 1 ? t("state.left", { text, n: Math.round(left) }) : text;
  }
}

/** Shows a button as one that does something now, or not; it keeps its focus. */
export const able = (id, is) => put($(id), "aria-disabled", !is);
