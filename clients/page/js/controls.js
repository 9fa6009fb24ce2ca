// What is clicked, typed and pressed: each changes the state, and the state is what the controls show.

import { $, made, put, reveal, say } from "./dom.js";
import { keep } from "./keep.js";
import { SQUARES, START, settled, sideOf } from "./rules.js";
import { namesText } from "./sheet.js";
import { t } from "./texts.js";
import { able } from "./told.js";
import { GLYPHS } from "./tree.js";

const FIELDS = "textarea, select, input:not([type=checkbox]), [role=tab], dialog *";
const QUARTERS = 4;

export class Controls {
  /** `parts` are the page's other parts: {board, strip, quiz, local, analyst}. */
  constructor(app, parts) {
    Object.assign(this, { app, ...parts });
    this.wireButtons();
    this.wireOptions();
    document.addEventListener("keydown", (event) => this.key(event));
  }

  get tree() {
    return this.app.tree;
  }

  wireButtons() {
    const { app } = this, on = (id, does) => $(id).addEventListener("click", does);
    for (const id of ["first", "back", "forward", "last"]) on(id, () => app.step(() => this.tree[id]()));
    for (const id of ["undo", "redo"]) on(id, () => app.undo(id));
    on("fresh", () => app.begin(START, () => t("said.fresh")));
    on("turn-board", () => app.set({ turned: (app.state.options.turned + 1) % QUARTERS }));
    on("remove", () => app.change(() => this.tree.remove(), () => t("said.removed")));
    on("promote", () => app.change(() => this.tree.promote(), () => t("said.promoted")));
    on("clear", () => app.begin(`${"-".repeat(64)} ${sideOf(this.tree.start)}`));
    on("opening", () => app.begin(START));
    on("stop", () => this.stop());
    on("help", () => $("legend").showModal());
    on("legend-close", () => $("legend").close());
    on("skip", (event) => {
      event.preventDefault();
      $("tab-moves").focus();
    });
    $("glyphs").replaceChildren(...GLYPHS.map((glyph) => made("button", { type: "button", "aria-label": t(`glyph.${glyph}`), onclick: () => this.note({ glyph: this.tree.current.glyph === glyph ? "" : glyph }) }, glyph)));
    $("comment").addEventListener("change", () => this.note({ comment: $("comment").value }));
    $("slide").addEventListener("input", () => this.toPly(Number($("slide").value)));
  }

  /** Each option has one field, of its name. */
  wireOptions() {
    const { app } = this, changed = (id, does) => $(id).addEventListener("change", does);
    for (const field of document.querySelectorAll("[data-option]")) {
      field.addEventListener("change", () => app.set({ [field.dataset.option]: field.type === "checkbox" ? field.checked : field.dataset.number === undefined ? field.value : Number(field.value) }));
    }
    changed("setting", () => {
      app.state.setting = $("setting").checked;
      app.begin(app.state.setting ? this.tree.start : settled(this.tree.start).position, () => t(app.state.setting ? "said.setting" : "said.set"));
    });
    changed("side", () => app.begin(this.tree.start.slice(0, 65) + $("side").value));
    changed("language", () => {
      keep("language", $("language").value);
      location.reload();
    });
  }

  /** A square of the board. */
  chosen(square) {
    if (this.app.state.setting) this.set(square);
    else if (this.quiz.isAsked) this.quiz.answer(square);
    else this.app.play(square);
  }

  /** While the start is set up a square goes from empty to black to white. */
  set(square) {
    const at = SQUARES.indexOf(square), { start } = this.tree, cell = { "-": "X", X: "O", O: "-" }[start[at]];
    this.app.begin(start.slice(0, at) + cell + start.slice(at + 1), () => `${square}: ${t({ X: "black", O: "white", "-": "square.empty" }[cell])}`);
  }

  key(event) {
    if (event.defaultPrevented || event.altKey || event.target.closest?.("dialog *")) return;
    const name = event.key, { app } = this;
    if (name === "Escape") return this.leave(event);
    if (event.target.closest?.(FIELDS)) return;
    if (event.ctrlKey || event.metaKey) {
      const kind = name.toLowerCase() === "y" || (name.toLowerCase() === "z" && event.shiftKey) ? "redo" : name.toLowerCase() === "z" ? "undo" : null;
      if (!kind) return;
      event.preventDefault();
      return app.undo(kind);
    }
    const steps = { ArrowLeft: "back", ArrowRight: "forward", Home: "first", End: "last", ...(this.board.hasFocus ? { PageUp: "back", PageDown: "forward" } : {}) };
    if (steps[name]) app.step(() => this.tree[steps[name]]());
    else if ((name === "ArrowUp" || name === "ArrowDown") && this.tree.current.parent?.children.length > 1) app.step(() => this.tree.beside(name === "ArrowUp" ? -1 : 1));
    else if (!this.strip.press(name)) return;
    event.preventDefault();
  }

  /** Back to the game: out of a field, a variation, a question, a mistake, or the setting up of a start. */
  leave(event) {
    document.activeElement?.blur();
    if (this.app.state.setting) $("setting").click();
    else if (!this.strip.press("Escape")) this.app.toGame();
    event.preventDefault();
  }

  toPly(ply) {
    const node = [this.tree.root, ...this.tree.main()][ply];
    if (node) this.app.step(() => this.tree.go(node));
  }

  stop() {
    const { app } = this;
    app.state.stopped = !app.state.stopped;
    if (app.state.stopped) {
      this.analyst.dropAll();
      this.local.stop();
    } else this.analyst.forget();
    app.show();
    if (app.state.stopped) app.tell(t("said.stopped"));
  }

  note(what) {
    const { current } = this.tree;
    this.app.change(() => this.tree.note(current, what));
  }

  // --- What the controls show ---

  show(scene) {
    const { current, game, left, state, options, progress, tree } = scene, { parent, next } = current, { changes } = this.app;
    const is = { undo: changes.past.length, redo: changes.future.length, first: parent, back: parent, forward: next || !current.isMain, last: next, remove: parent, promote: parent && !current.isMain };
    for (const [id, can] of Object.entries(is)) able(id, can);
    put($("slide"), "max", game.length);
    $("slide").value = String(left.ply);
    put($("slide"), "aria-valuetext", left.parent ? `${left.ply}. ${left.move}` : t("said.start"));
    say($("names"), namesText(state.info));
    $("side").value = sideOf(tree.start);
    $("setting").checked = state.setting;
    for (const field of document.querySelectorAll("[data-option]")) {
      const value = options[field.dataset.option];
      if (field.type === "checkbox") field.checked = value;
      else if (field.value !== String(value) && document.activeElement !== field) field.value = String(value);
    }
    this.showNote(current);
    this.showStop(state.stopped, progress.known < progress.all);
  }

  showStop(stopped, busy) {
    say($("stop"), t(stopped ? "go.on" : "stop"));
    able("stop", busy || stopped);
    document.documentElement.dataset.known = busy ? "no" : "yes";
  }

  showNote(current) {
    reveal($("note"), current.parent);
    if (!current.parent) return;
    say($("note-move"), `${current.ply}. ${current.move}`);
    for (const button of $("glyphs").children) put(button, "aria-pressed", button.textContent === current.glyph);
    if (document.activeElement !== $("comment")) $("comment").value = current.comment;
  }
}
