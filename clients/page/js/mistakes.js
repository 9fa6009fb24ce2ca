// The mistakes of the game in its order: discs that were lost for certain, and what is doubtful by the evaluation, each
// with its own mark. A click opens the position before the move.

import { made, put } from "./dom.js";
import { resultsOf, totalsOf } from "./judge.js";
import { LOST } from "./measured.js";
import { MARKS } from "./moves.js";
import { listOf } from "./scene.js";
import { LIMITS, brief, lossWords, nameOf, words } from "./scores.js";
import { t } from "./texts.js";

/** A result for black in words. */
export const resultText = (discs) => words({ sign: "=", discs, side: "X" });

/** A mistake in words: its values shortly, or as `say` words them. */
export function rowText({ node, loss, best, bestMove, score }, scene, say = brief) {
  const seen = (one) => say(scene.seen(one, node.side)), values = { best: bestMove, worth: seen(best), value: seen(score) };
  return t(`mistakes.row.${loss.unit}`, { ply: node.ply, move: node.move, lost: lossWords(loss), ...values });
}

/** What the result changed by, where all is searched to the end; and what both players lost. */
export function totalsText({ tree, game, ...scene }) {
  const results = resultsOf([tree.root, ...game], scene).results ?? [], [from, to] = [results[0], results.at(-1)];
  const sums = ["X", "O"].map((side) => {
    const all = totalsOf(game, side, scene);
    return all.inDiscs + all.inPoints ? t("totals", { ...all, side: nameOf(side), discs: t("unit.discs", { n: all.discs }) }) : "";
  });
  const changed = from === undefined ? "" : { before: resultText(from), after: resultText(to), by: t("unit.discs", { n: Math.abs(to - from) }) };
  return [changed && t("totals.changed", changed), ...sums].filter(Boolean);
}

/** What the list is about, and how often its opinions are so. */
export const helpText = ({ sign }) => `${t("mistakes.help", { doubtful: LIMITS.DOUBTFUL, ...LOST })} ${t(`sign.${sign}`)}`;

export class Mistakes {
  /** Shows mistakes in an element; `chosen` is called with the node of one that was clicked. */
  constructor(element, chosen) {
    Object.assign(this, { element, chosen, sign: "", buttons: new Map() });
  }

  /** `rest` says why no values come, where none do; `turn` is the move where the game was lost. */
  show(scene, rest, turn) {
    const { game, veil, progress: { known, all } } = scene, isKnown = game.some((node) => scene.of(node.parent.position));
    const rows = listOf(scene).map((one) => ({ ...one, text: rowText(one, scene), name: rowText(one, scene, words), isTurn: one.node === turn }));
    const wait = !game.length ? t("mistakes.none") : rest || (known < all ? t("mistakes.wait", { known, all }) : "");
    const told = isKnown && !veil ? totalsText(scene) : [];
    const sign = JSON.stringify([wait, told, isKnown, scene.options.sign, rows.map(({ text, isTurn }) => [text, isTurn])]);
    if (sign !== this.sign) this.fill(wait, told, rows, isKnown && helpText(scene.options));
    this.sign = sign;
    for (const [node, button] of this.buttons) put(button, "aria-current", node === scene.mistake?.node);
  }

  /** Buttons stay the same where their mistake does, so that they keep their clicks. */
  fill(wait, told, rows, help) {
    const before = this.buttons, dim = (text) => made("p", { class: "dim" }, text);
    this.buttons = new Map();
    const list = made("ol", {}, ...rows.map((row) => made("li", {}, this.button(row, before))));
    const found = rows.length ? [list] : help && !wait ? [made("p", {}, t("mistakes.no"))] : [];
    this.element.replaceChildren(...(wait ? [dim(wait)] : []), ...told.map((text) => made("p", {}, text)), ...found, ...(help ? [dim(help)] : []));
  }

  button({ node, loss, text, name, isTurn }, before) {
    const mark = MARKS[loss.class], there = before.get(node), sign = `${mark}${isTurn ? "⚑" : ""} ${text}`;
    if (there?.dataset.sign === sign) {
      this.buttons.set(node, there);
      return there;
    }
    const swatch = made("span", { class: `mark ${loss.class}`, "aria-hidden": "true" }, mark + (isTurn ? "⚑" : ""));
    const disc = made("span", { "aria-hidden": "true" }, made("span", { class: `disc-small ${node.side === "X" ? "black" : "white"}` }));
    const said = [isTurn ? t("mistakes.turn") : "", nameOf(node.side), t(`glyph.${mark}`), name].filter(Boolean).join(", ");
    const kind = `mistake ${loss.unit}${isTurn ? " turn" : ""}`, own = { "data-sign": sign, "aria-label": said, onclick: () => this.chosen(node) };
    const button = made("button", { type: "button", class: kind, ...own }, swatch, disc, made("span", {}, text));
    this.buttons.set(node, button);
    return button;
  }
}
