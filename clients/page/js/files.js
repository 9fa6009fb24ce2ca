// Games in and out: texts and files that are read, what is told of a game, what is copied and saved, and the shelf.

import { FIELDS, read } from "./address.js";
import { $, made, reveal, say } from "./dom.js";
import * as ggf from "./formats/ggf.js";
import { filesReading, textReading, titleOf } from "./formats/read.js";
import * as sgf from "./formats/sgf.js";
import { Unread } from "./formats/unread.js";
import * as wthor from "./formats/wthor.js";
import { Shelf, copy, save } from "./keep.js";
import { pause } from "./lines.js";
import { painted, pictureText } from "./picture.js";
import { START } from "./rules.js";
import { t } from "./texts.js";
import { able } from "./told.js";
import { treeOf } from "./tree.js";

const KINDS = ["txt", "ggf", "sgf", "wtb", "svg", "png"];
const SLICE = 40, AT_ONCE = 500; // milliseconds of reading, and games of the list, before others get their turn
const MAIN_LINES = ["ggf", "wtb"]; // these have no variations and no notes
const FIELD = "textarea, select, input:not([type=checkbox], [type=file], [type=range])";

export class Files {
  constructor(app) {
    Object.assign(this, { app, shelf: new Shelf() });
    $("save-as").replaceChildren(...KINDS.map((kind) => made("option", { value: kind }, t(`export.${kind}`))));
    const on = (id, event, does) => $(id).addEventListener(event, does);
    on("import", "click", () => this.read(textReading($("pasted").value)));
    on("file", "change", () => this.open([...$("file").files]).then(() => ($("file").value = "")));
    on("games", "change", () => this.choose(Number($("games").value)));
    on("copy-text", "click", () => this.copied(app.tree.text({ variations: false, notes: false })));
    on("copy-position", "click", () => this.copied(app.tree.current.position));
    on("copy-link", "click", () => this.link() && this.copied(this.link()));
    on("save", "click", () => this.save(app.state.options.saveAs));
    on("print", "click", () => window.print());
    on("shelf-keep", "click", () => this.keep());
    for (const name of FIELDS) on(`field-${name}`, "change", () => app.change(() => void (app.state.info = { ...app.state.info, [name]: $(`field-${name}`).value.trim() })));
    document.addEventListener("paste", (event) => {
      const text = event.clipboardData?.getData("text") ?? "";
      if (event.target.closest?.(FIELD) || !text.trim()) return;
      event.preventDefault();
      this.read(textReading(text), true);
    });
    document.addEventListener("dragover", (event) => event.preventDefault());
    document.addEventListener("drop", (event) => {
      event.preventDefault();
      const { files } = event.dataTransfer;
      if (files.length) this.open([...files]);
      else this.read(textReading(event.dataTransfer.getData("text")));
    });
    this.showShelf();
  }

  async open(files) {
    const read = await Promise.all(files.map(async (file) => ({ name: file.name, bytes: new Uint8Array(await file.arrayBuffer()) })));
    if (read.length) await this.read(filesReading(read));
  }

  /** Reads in slices, so that nothing waits for it; what is begun last counts. */
  async read(steps, pasted = false) {
    const own = (this.reading = {});
    for (;;) {
      const begun = performance.now();
      let step = steps.next();
      while (!step.done && performance.now() - begun < SLICE) step = steps.next();
      if (step.done) return this.took(step.value, pasted);
      this.app.tell(t("said.reading", { n: step.value }));
      await pause(0);
      if (this.reading !== own) return;
    }
  }

  /** Takes over what was read: the first game is opened, and all are in a list; where it was `pasted` anywhere, what there is to choose or to mend is shown. */
  took({ games, faults }, pasted = false) {
    const { state } = this.app;
    state.found = games;
    reveal($("found"), games.length > 1);
    if (pasted && (games.length > 1 || faults.length)) this.app.choose?.("files");
    $("games").replaceChildren();
    this.list(games, 0);
    if (games.length) {
      $("games").value = "0";
      this.choose(0);
    }
    const own = games.length && !games[0].isRead ? state.faults : [];
    state.faults = [...new Set([...faults.map((fault) => fault.text), ...own])];
    this.showFaults();
    if (!state.faults.length) this.app.tell(t("said.read", { n: games.length }));
  }

  /** Puts games into the list, so many at once. */
  async list(games, from) {
    const nameOf = (game) => titleOf(game) || t("import.position", { n: game.start.split("-").length - 1 }), some = games.slice(from, from + AT_ONCE);
    $("games").append(...some.map((game, at) => made("option", { value: from + at }, `${from + at + 1}. ${nameOf(game)}`)));
    if (from + AT_ONCE >= games.length) return;
    await pause(0);
    if (this.app.state.found === games) this.list(games, from + AT_ONCE);
  }

  /** Opens a game of the list. */
  choose(at) {
    const { state } = this.app, { start = START, moves, ...info } = state.found[at], { tree, faults } = treeOf(moves, start);
    state.faults = faults.map(({ kind, word, number }) => new Unread(kind, { word, number }).text);
    this.app.change(() => {
      state.tree = tree;
      state.info = Object.fromEntries(FIELDS.filter((name) => info[name]).map((name) => [name, info[name]]));
    }, () => this.app.where());
    this.showFaults();
  }

  showFaults() {
    const { faults } = this.app.state;
    $("faults").replaceChildren(...faults.map((text) => made("li", {}, text)));
    reveal($("faults"), faults.length);
    if (faults.length) this.app.tell(faults.length === 1 ? faults[0] : t("said.faults", { n: faults.length }));
  }

  /** A link that others can open: to this page's address, or, of a page from a disk, to the one that is set; none where none is. */
  link() {
    const set = this.app.state.options.address.trim(), own = location.protocol.startsWith("http") ? location.href.split(/[?#]/)[0] : /^https?:\/\/[^\s?#]+$/.test(set) ? set : "";
    return own && own + this.app.address("");
  }

  async copied(text) {
    $("given").value = text;
    if (await copy(text)) return this.app.tell(t("said.copied"));
    $("given").focus();
    $("given").select();
    this.app.tell(t("said.given"));
  }

  /** What a picture of the board shows. */
  picture() {
    const { current, known, seen } = this.scene;
    return { position: current.position, table: known?.table, seen, best: known?.best, last: current.move };
  }

  async save(kind) {
    const { tree, info } = this.app.state, game = { ...info, start: tree.start, root: tree.root, line: tree.main() };
    const text = { txt: () => `${tree.text({ between: " " })}\n`, ggf: () => ggf.write(game), sgf: () => sgf.write(game) }[kind]?.();
    const lost = MAIN_LINES.includes(kind) ? besides(tree) : null;
    try {
      if (text !== undefined) {
        $("given").value = text;
        save(`game.${kind}`, "text/plain", text);
      } else if (kind === "wtb") for (const [suffix, bytes] of Object.entries(wthor.write(game))) save(`game.${suffix}`, "application/octet-stream", bytes);
      else if (kind === "svg") save("board.svg", "image/svg+xml", pictureText(this.picture()));
      else save("board.png", "image/png", await painted(this.picture()));
      this.app.tell(lost?.variations || lost?.notes ? t("export.lost", { kind: kind === "ggf" ? "GGF" : "WTHOR", variations: t("export.variations", { n: lost.variations }), notes: t("export.notes", { n: lost.notes }) }) : t("export.saved"));
    } catch (fault) {
      if (!(fault instanceof Unread)) throw fault;
      this.app.tell(fault.text);
    }
  }

  keep() {
    const { info, tree } = this.app.state, names = [info.black, info.white].filter(Boolean).join(" – ");
    const name = $("shelf-name").value.trim() || [names, info.date].filter(Boolean).join(", ") || tree.text({ variations: false, notes: false }).slice(0, 24) || "–";
    this.app.tell(t(this.shelf.put(name, this.app.address("")) ? "shelf.kept" : "shelf.no"));
    this.showShelf();
  }

  showShelf() {
    const { games } = this.shelf;
    const rows = games.map(({ name, address }) => {
      const open = made("button", { type: "button", onclick: () => this.app.change(() => this.app.take(read({ hash: address })), () => this.app.where()) }, name);
      const drop = () => {
        this.shelf.drop(name);
        this.showShelf();
        this.app.tell(t("shelf.dropped"));
      };
      return made("li", {}, open, made("button", { type: "button", "aria-label": t("shelf.drop", { name }), title: t("shelf.drop", { name }), onclick: drop }, "✕"));
    });
    $("shelf").replaceChildren(...(rows.length ? rows : [made("li", { class: "dim" }, t("shelf.none"))]));
  }

  show(scene) {
    this.scene = scene;
    for (const name of FIELDS) {
      const field = $(`field-${name}`), value = scene.state.info[name] ?? "";
      if (field.value !== value && document.activeElement !== field) field.value = value;
    }
    const isFile = !location.protocol.startsWith("http"), link = this.link();
    able("copy-link", link);
    reveal($("address-field"), isFile);
    say($("link-told"), link ? "" : t("export.nolink"));
  }
}

/** What of a game isn't its main line: how many variations, and how many moves with a sign or comment. */
export function besides(tree) {
  const all = [tree.root, ...tree.nodes()];
  return { variations: all.reduce((sum, node) => sum + Math.max(node.children.length - 1, 0), 0), notes: all.filter((node) => node.glyph || node.comment).length };
}
