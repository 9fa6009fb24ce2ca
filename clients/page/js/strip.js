// The line below the board: a question, a mistake with its better moves, a variation, or the opening's name; with the buttons and keys that lead on.
// It is in view wherever the board is.

import { $, made, reveal, say } from "./dom.js";
import { openingOf } from "./openings.js";
import { sideOf } from "./rules.js";
import { listOf } from "./scene.js";
import { brief, lossWords } from "./scores.js";
import { t } from "./texts.js";

/** What a mistake was: the move, what it lost, and the better ones with their values. */
function mistakeText({ mistake: { node, better, loss, score }, known, seen, position }) {
  if (!known) return t("strip.waits", { ply: node.ply, move: node.move });
  const value = (one) => brief(seen(one, sideOf(position))), lost = lossWords(loss);
  const worth = (move) => `${move} ${known.table.get(move) ? value(known.table.get(move)) : ""}`.trim();
  const move = `${node.ply}. ${node.move}${score ? ` (${value(score)})` : ""}`;
  const name = { grave: "strip.lost", weak: "strip.lost", doubtful: "strip.doubtful" }[loss?.class] ?? "strip.fine";
  const others = better.slice(0, 3).map(worth).join(", ");
  return [t(name, { move, lost }), others && t("strip.better", { moves: others })].filter(Boolean).join(" ");
}

export class Strip {
  /** `does` has what the buttons do, by their names. */
  constructor(app, does) {
    Object.assign(this, { app, does, sign: "", keys: {} });
  }

  /** The text and the buttons of a scene: {name, label, key}. */
  of(scene) {
    const { state: { lesson, quiz }, variation, mistake, left, veil } = scene;
    const button = (name, key, values = {}) => ({ name, key, label: t(`strip.${name}`, values) });
    const more = !veil && listOf(scene).length ? [button("next", "n")] : [], question = quiz ? [button("question", "n")] : [];
    if (lesson.looking) {
      return { text: t("strip.looking", { name: lesson.looking.name || t("class.nameless") }), buttons: [button("mine", "Escape"), button("show", "")] };
    }
    if (quiz && !(variation.length && !quiz.open)) {
      return { text: quiz.said, buttons: [...(quiz.open ? [button("answer", "a")] : question), button("end", "Escape")] };
    }
    if (variation.length) {
      const values = { ply: left.ply, moves: variation.map(({ move }) => move).join(" ") };
      return { text: t(left.parent ? "strip.variation" : "strip.start", values), buttons: [button("game", "Escape"), ...question] };
    }
    if (!mistake || veil) return { text: openingOf(scene.current), buttons: more };
    const best = mistake.better.length ? [button("try", "t", { move: mistake.better[0] })] : [];
    return { text: mistakeText(scene), buttons: [...best, ...more] };
  }

  show(scene) {
    this.scene = scene;
    const { text, buttons } = this.of(scene), sign = JSON.stringify(buttons);
    say($("strip-text"), text ?? "");
    $("strip-text").title = text ?? "";
    this.keys = Object.fromEntries(buttons.filter(({ key }) => key).map(({ key, name }) => [key, name]));
    if (sign === this.sign) return;
    this.sign = sign;
    const focused = document.activeElement?.dataset.does, there = $("strip-buttons");
    const shown = (key) => made("kbd", { "aria-hidden": "true" }, key === "Escape" ? "Esc" : key.toUpperCase());
    there.replaceChildren(...buttons.map(({ name, label, key }) => {
      const words = { type: "button", "data-does": name, "aria-keyshortcuts": key || null, onclick: () => this.does[name]() };
      return made("button", words, label, key ? shown(key) : "");
    }));
    reveal(there, buttons.length);
    if (focused) there.querySelector(`[data-does="${focused}"]`)?.focus();
  }

  /** The best move of the mistake that is looked at. */
  get best() {
    return this.scene.mistake?.better[0] ?? "";
  }

  /** Opens the next mistake of the list, or the first behind where one is, and behind the last one the first. */
  next() {
    const { mistake, current } = this.scene, all = listOf(this.scene), at = mistake ? mistake.node.ply : current.ply;
    if (all.length) this.app.showMistake((all.find(({ node }) => node.ply > at) ?? all[0]).node);
  }

  /** Does what a key stands for, if it stands for something here. */
  press(key) {
    const name = this.keys[key.length === 1 ? key.toLowerCase() : key];
    if (name) this.does[name]();
    return Boolean(name);
  }
}
