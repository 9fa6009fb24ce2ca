// What changes the page's state, undoes it, goes through the game, and writes it into the address. Each change is shown at once.

import { Changes, FIELDS, read, startOf, written } from "./address.js";
import { turnText } from "./board.js";
import { $, say } from "./dom.js";
import { Unread } from "./formats/unread.js";
import { START, isOver, other, sideOf } from "./rules.js";
import { nameOf } from "./scores.js";
import { DEPTH, keepOptions, newState } from "./state.js";
import { t } from "./texts.js";
import { Tree, treeOf } from "./tree.js";

const SEEN = 5000; // milliseconds for which what was said is seen

export class App {
  constructor() {
    Object.assign(this, { state: newState(), changes: new Changes(), views: [], leavers: [], collapses: false });
  }

  get tree() {
    return this.state.tree;
  }

  // --- The state: what is there, as the address and the undoing know it ---

  snapshot() {
    const { tree, info } = this.state;
    return { start: tree.start, moves: tree.text(), at: String(tree.numberOf(tree.current)), ...info };
  }

  /** The state as an address; `follow` names a class that is followed. */
  address(follow = this.state.lesson.follow) {
    const { depth, sign } = this.state.options;
    return written({ ...this.snapshot(), depth: depth === DEPTH ? "" : String(depth), view: sign === "black" ? sign : "", follow });
  }

  /** Writes the state into the address: as a new entry of the browser's list, or in the place of the last one. */
  remember(entry = true) {
    const address = this.address();
    if (address === location.hash || (address === "#" && !location.hash && !location.search)) return;
    const path = location.pathname + address;
    if (entry) history.pushState(null, "", path);
    else history.replaceState(null, "", path);
  }

  /** Takes over a state. What of it can't be played is told. */
  take(said) {
    const start = startOf(said), { tree, faults } = treeOf(said.moves ?? "", start ?? START), { state } = this;
    state.tree = tree;
    state.info = Object.fromEntries(FIELDS.filter((name) => said[name]).map((name) => [name, said[name]]));
    state.faults = [...(start ? [] : [t("fault.start")]), ...faults.map(({ kind, word, number }) => new Unread(kind, { word, number }).text)];
    if (said.at === undefined) tree.last();
    else tree.goTo(Number(said.at));
    if (said.depth) state.options.depth = Math.min(Math.max(Number(said.depth) || DEPTH, 1), 60);
    if (["mover", "black"].includes(said.view)) state.options.sign = said.view;
  }

  /** Opens what an address says. */
  open(location) {
    const said = read(location);
    this.take(said);
    this.show();
    return said;
  }

  // --- What changes it ---

  /** Chooses options. */
  set(options) {
    Object.assign(this.state.options, options);
    keepOptions(this.state.options);
    if ("depth" in options || "sign" in options) this.remember(false);
    this.show();
  }

  /** Makes a change that can be undone, and says it. */
  change(make, said) {
    const before = this.snapshot();
    if (make() === false) return;
    if (JSON.stringify({ ...before, at: "" }) !== JSON.stringify({ ...this.snapshot(), at: "" })) this.changes.record(before);
    this.moved(true);
    if (said) this.tell(said());
  }

  /** Goes to another move; steps after one another are one entry of the browser's list. */
  step(make, mistake = this.state.mistake) {
    const { state } = this, before = state.tree.current, was = state.mistake;
    make();
    if (state.tree.current === before && was === mistake) return;
    state.mistake = mistake;
    this.moved(!this.collapses, true);
    this.tell(this.where());
  }

  /** Looks at the position before a move of the game, with that move and the better ones. */
  showMistake(node) {
    this.step(() => this.tree.go(node.parent), node);
  }

  /** From a variation back to where it left the game; and from a mistake to the game. */
  toGame() {
    if (this.tree.current.isMain) this.step(() => {}, null);
    else this.step(() => this.tree.go(this.tree.left));
  }

  moved(entry, collapses = false) {
    this.collapses = collapses;
    const { mistake, tree } = this.state;
    if (mistake && tree.left !== mistake.parent) this.state.mistake = null; // a variation from its position leads back to it
    this.state.hint = "";
    for (const leave of this.leavers) leave();
    this.remember(entry);
    this.show();
  }

  play(square) {
    const { tree } = this;
    this.change(
      () => {
        const ok = tree.play(square);
        if (!ok) this.tell(t(isOver(tree.current.position) ? "said.over" : "said.illegal", { square }));
        return ok;
      },
      () => this.where(),
    );
  }

  begin(start, said) {
    this.change(() => {
      this.state.tree = new Tree(start);
      this.state.info = {};
    }, said);
  }

  undo(kind) {
    const state = this.changes[kind](this.snapshot());
    if (!state) return;
    this.take(state);
    this.moved(true);
    this.tell(t(`said.${kind}`));
  }

  // --- What is told ---

  show() {
    for (const view of this.views) view();
  }

  /**
   * Says what was done; it is seen for a while where the board doesn't show it anyhow. Values have a region of their own, so that a quick
   * one doesn't take this sentence away before it is read.
   */
  tell(text) {
    $("live").textContent = text;
    $("live-value").textContent = "";
    say($("toast"), [this.where(), $("strip-text").textContent].includes(text) ? "" : text);
    clearTimeout(this.seen);
    this.seen = setTimeout(() => say($("toast"), ""), SEEN);
  }

  /** Where one is, in words. */
  where() {
    const { current } = this.tree;
    const { ply, side, move } = current, place = current.parent ? t("said.move", { ply, side: nameOf(side), move }) : t("said.start");
    return [place, ...(current.passed ? [t("said.passed", { side: nameOf(other(sideOf(current.position))) })] : []), turnText(current.position)].join(" ");
  }
}
