// A game against the program: it looks ahead as its level says, and now and then chooses another move than the best.

import { able } from "./told.js";
import { $, made, reveal, say } from "./dom.js";
import { START, count, isOver, other, sideOf } from "./rules.js";
import { rank } from "./scores.js";
import { t } from "./texts.js";

/** What each level looks ahead (plies), and in how many of 100 cases it makes a mistake. */
export const LEVELS = [[1, 50], [1, 25], [2, 15], [2, 0], [4, 10], [4, 0], [6, 0], [8, 0]];
const SHORTEST = 350; // milliseconds that the program takes, so that its move is seen

/** The move of a level: the best, or by chance another one, of which good ones are more likely. */
export function choiceOf({ table, best }, mistakes, chance = Math.random) {
  const others = [...table].filter(([move]) => move !== best).sort(([, one], [, two]) => rank(two) - rank(one));
  if (!others.length || chance() * 100 >= mistakes) return best;
  return others[Math.floor(others.length * chance() ** 2)][0];
}

export class Program {
  constructor(app, local, analyst) {
    Object.assign(this, { app, local, analyst });
    $("level").replaceChildren(...LEVELS.map((_, at) => made("option", { value: at }, String(at + 1))));
    const on = (id, does) => $(id).addEventListener("click", does);
    on("play-begin", () => this.begin(true));
    on("play-here", () => this.begin(false));
    on("play-end", () => this.end());
    on("take-back", () => this.takeBack());
    on("hint", () => this.hint());
  }

  get match() {
    return this.app.state.match;
  }

  begin(fresh) {
    const { state } = this.app, { level, seat } = state.options;
    state.match = { side: seat, level, fault: "" };
    if (fresh) this.app.begin(START, () => t("said.fresh"));
    state.info = { ...state.info, [seat === "X" ? "white" : "black"]: t("play.program.name", { n: level + 1 }) };
    this.app.remember(false);
    this.app.show();
  }

  end() {
    this.app.state.match = null;
    this.thinking?.abort();
    this.app.show();
  }

  /** Goes back to the move before the player's last one. */
  takeBack() {
    if (!this.match) return;
    const { tree } = this.app, { side } = this.match;
    this.thinking?.abort();
    this.app.change(() => {
      let node = tree.current;
      while (node.parent && node.side !== side) node = node.parent;
      if (!node.parent) return false;
      tree.go(node);
      return tree.remove();
    }, () => this.app.where());
  }

  async hint() {
    const { position } = this.app.tree.current;
    if (isOver(position) || !this.canMove) return;
    const known = this.analyst.of(position) ?? (await this.local.table(position, 6).catch(() => null));
    if (!known || this.app.tree.current.position !== position) return;
    this.app.state.hint = known.best;
    this.app.show();
    this.app.tell(t("play.hinted", { move: known.best }));
  }

  /** Whether the engine, by which the program moves, runs here, or may yet. */
  get canMove() {
    return this.local.engine ? !this.local.engine.closed : !this.local.fault;
  }

  show(scene) {
    const { state, current, setting } = scene, { match } = state, [depth, mistakes] = LEVELS[match?.level ?? state.options.level];
    say($("level-told"), t("play.level.told", { n: depth, share: mistakes }));
    for (const id of ["play-end", "take-back"]) reveal($(id), match);
    able("take-back", current.parent);
    able("hint", !isOver(current.position) && this.local.engine && !state.lesson.hidden);
    say($("play-told"), this.textOf(scene));
    const isTurn = match && !setting && sideOf(current.position) !== match.side;
    if (isTurn && !current.next && !isOver(current.position) && !state.stopped && !match.fault && this.local.engine) this.move(current);
    else this.thinking?.abort();
  }

  /** How the game stands: nobody is said to think who doesn't. */
  textOf({ state: { match, stopped }, current }) {
    if (!match) return this.canMove ? "" : t("play.engine");
    const { position } = current, isTurn = sideOf(position) !== match.side;
    if (isOver(position)) return t("play.over", { text: t("discs", { black: count(position, "X"), white: count(position, "O") }) });
    if (current.next) return t("play.paused");
    if (!isTurn) return t("play.your");
    if (!this.canMove) return t("play.engine");
    return match.fault ? t("play.fault", { text: match.fault }) : t(stopped ? "play.stopped" : "play.thinks");
  }

  /** Makes the program's move, if it isn't thinking of it already. */
  async move(node) {
    if (this.thinking && !this.thinking.signal.aborted && this.node === node) return;
    this.thinking?.abort();
    const stop = (this.thinking = new AbortController()), { match } = this, [depth, mistakes] = LEVELS[match.level];
    this.node = node;
    try {
      const [found] = await Promise.all([this.local.table(node.position, depth, stop.signal), new Promise((done) => setTimeout(done, SHORTEST))]);
      if (stop.signal.aborted || this.app.tree.current !== node || this.match?.side !== other(sideOf(node.position))) return;
      this.app.play(choiceOf(found, mistakes));
    } catch (fault) {
      if (stop.signal.aborted || this.match !== match || fault?.name === "AbortError") return; // it was stopped: the next that is shown begins anew
      match.fault = fault.message;
      this.app.show();
    } finally {
      if (this.thinking === stop) this.thinking = null;
    }
  }
}
