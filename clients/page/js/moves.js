// The moves of the game, two in a row, with what each is worth; variations and comments below the moves that they are
// about. Rows and buttons stay the same while their values change: a button that is made anew between press and release would lose the
// click, and a long game would be slow.

import { made, put, reveal, say } from "./dom.js";
import { judged } from "./judge.js";
import { brief, lossWords, nameOf, words } from "./scores.js";
import { t } from "./texts.js";

export const MARKS = { doubtful: "?!", weak: "?", grave: "??" };

/** The moves in pairs: black's and white's; who has to pass has an empty place. */
export function pairsOf(line) {
  const pairs = [];
  for (const node of line) {
    const last = pairs.at(-1);
    if (node.side === "O" && last && !last.O) last.O = node;
    else pairs.push({ [node.side]: node });
  }
  return pairs;
}

export class Moves {
  /** Shows moves in an element; `chosen` is called with the node of a move that was clicked. */
  constructor(element, chosen) {
    Object.assign(this, { element, chosen, cells: new WeakMap(), rows: new WeakMap(), smalls: new WeakMap(), below: new WeakMap() });
    this.body = made("div", { class: "pairs", role: "list", "aria-label": t("moves") });
    this.none = made("p", { class: "none" }, t("moves.none"));
    this.rest = made("p", { class: "rest", hidden: true });
    element.append(this.rest, this.body, this.none);
  }

  /** Shows the game of a scene; `rest` says why no values come, where none do. */
  show(scene, rest) {
    const { tree, game: line } = scene, focused = this.element.contains(document.activeElement), rows = [];
    reveal(this.none, !line.length);
    say(this.rest, line.length ? rest : "");
    reveal(this.rest, this.rest.textContent);
    for (const pair of pairsOf(line)) {
      rows.push(this.row(pair, scene));
      for (const node of [pair.X, pair.O]) if (node) rows.push(...this.notes(node));
    }
    const there = this.body.children;
    if (rows.length !== there.length || rows.some((row, at) => row !== there[at])) this.body.replaceChildren(...rows);
    this.reach(tree, line, focused);
  }

  /** The one button that Tab reaches: that of the current move, or of the first. */
  reach(tree, line, focused) {
    const cell = (node) => this.cells.get(node)?.button ?? this.smalls.get(node);
    const here = cell(tree.current) ?? (line[0] && cell(line[0]));
    if (this.here !== here) {
      this.here?.removeAttribute("aria-current");
      if (this.here) this.here.tabIndex = -1;
    }
    this.here = here;
    if (!here) return;
    here.tabIndex = 0;
    if (tree.current.parent) here.setAttribute("aria-current", "true");
    else here.removeAttribute("aria-current");
    if (focused) here.focus({ preventScroll: true });
    if (this.seen !== tree.current) requestAnimationFrame(() => this.scroll(here));
    this.seen = tree.current;
  }

  /** Has the current move seen, where the list was hidden. */
  reveal() {
    if (this.here) requestAnimationFrame(() => this.scroll(this.here));
  }

  /** Moves the list, and nothing else, so that a row can be seen; with the next picture, as places are known then. */
  scroll(button) {
    const list = [this.element.closest(".panel"), this.element.closest(".side")].find((one) => one && one.scrollHeight > one.clientHeight + 1 && getComputedStyle(one).overflowY !== "visible");
    if (!list || !button.isConnected) return;
    const box = button.getBoundingClientRect(), frame = list.getBoundingClientRect();
    if (box.top < frame.top) list.scrollTop -= frame.top - box.top + 8;
    else if (box.bottom > frame.bottom - 8) list.scrollTop += box.bottom - frame.bottom + 40;
  }

  row(pair, scene) {
    const first = pair.X ?? pair.O, row = this.rows.get(first) ?? made("div", { class: "pair", role: "listitem" }, made("span", { class: "number" }, String(first.ply)));
    this.rows.set(first, row);
    const cells = ["X", "O"].map((side) => (pair[side] ? this.cell(pair[side], scene) : (row.empty ??= made("span", { class: "empty" }))));
    if (row.empty) say(row.empty, isPass(pair) ? t("pass") : "");
    if (cells[0] !== row.children[1] || cells[1] !== row.children[2]) row.replaceChildren(row.children[0], ...cells);
    return row;
  }

  /** The button of a move, with what is known now; nothing is worded anew where nothing else is known than before. */
  cell(node, scene) {
    const cell = this.cells.get(node) ?? this.newCell(node), known = scene.of(node.parent.position), sign = `${scene.options.sign}${node.glyph}`;
    if (cell.known === known && cell.sign === sign) return cell.button;
    Object.assign(cell, { known, sign });
    const { score, loss, best, bestMove, depth } = judged(node, scene), seen = (one) => scene.seen(one, node.side);
    const value = score ? brief(seen(score)) : "", mark = node.glyph || (MARKS[loss?.class] ?? "");
    say(cell.value, value);
    say(cell.mark, mark);
    const kind = node.glyph ? "glyph" : (loss?.class ?? "good");
    const lost = lossWords(loss), unit = loss?.unit ?? "";
    put(cell.button, "class", `move ${kind} ${unit} ${unit === "points" && loss.tint ? `lost${loss.tint}` : ""}`.trim());
    const name = [cell.name, mark && t(`glyph.${mark}`), score && words(seen(score)), lost && t(`moves.lost.${unit}`, { lost })];
    put(cell.button, "aria-label", name.filter(Boolean).join(", "));
    const told = best && { best: bestMove, worth: words(seen(best)), lost: lost || t("lost.unknown"), n: depth };
    put(cell.button, "title", best ? t(score === best ? "moves.best" : "moves.told", told) : "");
    return cell.button;
  }

  newCell(node) {
    const cell = { value: made("span", { class: "value" }), mark: made("span", { class: "mark" }), name: moveName(node), sign: null };
    cell.button = made("button", { type: "button", class: "move", tabindex: -1, onclick: () => this.chosen(node) }, made("span", { class: "what" }, node.move), cell.mark, cell.value);
    this.cells.set(node, cell);
    return cell;
  }

  /** What stands below a row about one of its moves: its comment, and the variations in its place. */
  notes(node) {
    const others = node.parent.children.filter((child) => child !== node), kept = this.below.get(node);
    const sign = [node.comment, ...others.map(signOf)].join("|");
    if (kept?.sign === sign && kept.others.every((one, at) => one === others[at])) return kept.found;
    const found = [];
    if (node.comment) found.push(made("p", { class: "comment", role: "listitem" }, made("b", {}, node.move), ` ${node.comment}`));
    if (others.length) found.push(made("p", { class: "variations", role: "listitem" }, ...others.flatMap((other) => ["(", ...this.inline(other), ") "])));
    this.below.set(node, { sign, found, others });
    return found;
  }

  /** A variation with its own, in parentheses. */
  inline(node) {
    const found = [this.small(node)];
    for (let at = node; at.children.length; [at] = at.children) {
      const [main, ...others] = at.children;
      found.push(" ", this.small(main));
      for (const child of others) found.push(" (", ...this.inline(child), ")");
    }
    return found;
  }

  small(node) {
    const button = made("button", { type: "button", class: "move small", tabindex: -1, "aria-label": moveName(node), onclick: () => this.chosen(node) }, `${node.move}${node.glyph}`);
    this.smalls.set(node, button);
    return button;
  }
}

/** Whether the empty place of a pair is a pass: the other player moved, and nothing could be played. */
export const isPass = ({ X, O }) => (O ?? { parent: X }).parent.passed;

/** What a variation looks like. */
const signOf = (node) => `${node.move}${node.glyph}(${node.children.map(signOf).join(",")})`;

const moveName = (node) => [`${node.ply}. ${nameOf(node.side)} ${node.move}`, ...(node.passed ? [t("passed")] : [])].join(", ");
