// The first thing that is said: where a game was lost, with a button that leads there; of an empty board how to begin.

import { $, put, reveal, say } from "./dom.js";
import { judged, verdictOf } from "./judge.js";
import { resultText } from "./mistakes.js";
import { lossWords, nameOf } from "./scores.js";
import { t } from "./texts.js";

/** A game for one who has none: the search against itself, 4 and 3 plies ahead, with second best moves now and then. */
export const SAMPLE = {
  moves: "d3c5f6e3f3f5c4c2c3d2b6e2c1b4g6f4f1d6d1e1f2c6b5a6a3e6b3h6e7a5" +
    "f7c7c8e8d7g5g4h4h5d8h3b8h7a4f8g8a7g3b2b7h2a2a1b1g7h8g2h1g1a8",
  black: "Coluwen 4",
  white: "Coluwen 3",
};

/** Where a game was lost, in a sentence, and the move that shows it. */
export function whyOf(scene) {
  const { kind, node, loser, ...discs } = verdictOf(scene.tree.root, scene.game, scene), own = node ? judged(node, scene) : {};
  const result = (name) => (discs[name] === undefined ? "" : resultText(discs[name])), move = node && `${node.ply}. ${node.move}`;
  const values = { side: nameOf(node?.side ?? loser), move, best: own.bestMove, lost: lossWords(own.loss) };
  const text = t(`why.${kind}`, { ...values, before: result("before"), after: result("after") });
  return { text, node, isCertain: kind === "turn" || kind === "draw" };
}

export class Why {
  /** `does` has what its buttons do: show, open and sample. */
  constructor(does) {
    for (const [name, own] of Object.entries(does)) $(`why-${name}`).addEventListener("click", () => own(this.node));
  }

  /** `rest` says why no values come, where none do. */
  show(scene, rest) {
    const isEmpty = !scene.game.length, isKnown = scene.game.some((node) => scene.of(node.parent.position));
    const hidden = scene.veil || (rest && !isKnown) ? { text: rest || t("state.veiled") } : null;
    const { text, node, isCertain } = isEmpty ? { text: t("why.begin") } : (hidden ?? whyOf(scene));
    this.node = node;
    say($("why-text"), text);
    put($("why"), "class", isEmpty ? "begin" : isCertain ? "certain" : "");
    reveal($("why-show"), node);
    for (const name of ["open", "sample"]) reveal($(`why-${name}`), isEmpty);
  }
}
