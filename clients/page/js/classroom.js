// The part of the page for a class: its link with a QR code, who follows and who raises a hand; for pupils how to look alone, to follow again and to
// raise a hand. What a class sees follows from the state: the teacher's board, or where values are hidden from it the moves up to the one that is shown.

import { read, written } from "./address.js";
import { Pupil, Teacher, tellOf } from "./class.js";
import { $, made, put, reveal, say, shape } from "./dom.js";
import { keep, kept } from "./keep.js";
import { ServiceFault } from "./lines.js";
import { modules } from "./qr.js";
import { t } from "./texts.js";

/** A QR code as a picture, with the light edge that readers need. */
function codeOf(text) {
  const cells = modules(text), size = cells.length + 8;
  const path = cells.flatMap((row, at) => row.map((dark, column) => (dark ? `M${column + 4} ${at + 4}h1v1h-1z` : ""))).join("");
  const svg = shape("svg", { viewBox: `0 0 ${size} ${size}`, role: "img", "aria-label": t("class.qr", { address: text }) });
  svg.append(shape("rect", { width: size, height: size, fill: "#ffffff" }), shape("path", { d: path, fill: "#000000" }));
  return svg;
}

const isLocal = (address) => /^https?:\/\/(localhost|127\.|\[::1\])/.test(address);

/** What a class sees of a state: its address; where values are hidden nothing of what moves are worth, and of the game only what has been played up to here. */
export function lessonOf(app) {
  const { tree, info, lesson } = app.state;
  if (!lesson.hides) return app.address("");
  const moves = [];
  for (let node = tree.current; node.parent; node = node.parent) moves.unshift(node.move);
  return written({ ...info, result: "", start: tree.start, moves: moves.join(""), at: String(moves.length), hide: "1" });
}

export class Classroom {
  constructor(app, files) {
    Object.assign(this, { app, files, pupil: null, last: null, signs: {} });
    this.number = kept("pupil") ?? Math.random().toString(36).slice(2, 14);
    keep("pupil", this.number);
    $("pupil-name").value = kept("name") ?? "";
    this.lesson.hides = Boolean(kept("hides"));
    this.teacher = new Teacher((how) => this.turn(how), (told) => this.heard(told));
    const on = (id, does) => $(id).addEventListener("click", does);
    on("class-open", () => this.open());
    on("class-close", () => this.teacher.close().then(() => this.turn("")));
    on("class-alone", () => this.leave());
    on("class-again", () => this.again());
    on("class-copy", () => this.files.copied(this.link()));
    on("class-hide", () => this.hide());
    on("hand", () => this.hand());
    $("class-address").addEventListener("change", () => this.app.show());
    $("pupil-name").addEventListener("change", () => {
      keep("name", $("pupil-name").value.trim());
      this.say();
    });
    app.leavers.push(() => this.leave());
  }

  get lesson() {
    return this.app.state.lesson;
  }

  /** What the page's service says of itself: {depths, addresses}; nothing where there is none. */
  know(about) {
    this.lesson.about = about;
    this.app.show();
  }

  /** How the class stands. */
  turn(how) {
    this.lesson.how = how;
    if (how === "closed") {
      this.pupil = null;
      Object.assign(this.lesson, { follow: "", alone: false, hidden: false, looking: null });
    }
    this.app.show();
  }

  // --- The teacher ---

  async open() {
    if (!this.lesson.about || this.teacher.room) return;
    try {
      await this.teacher.open(lessonOf(this.app));
      this.turn("");
      this.app.tell(t("class.teaching"));
    } catch (fault) {
      this.app.tell(fault instanceof ServiceFault ? fault.message : t("state.unreachable", { n: 1 }));
    }
  }

  /** Hides values from the class, or shows them. */
  hide() {
    this.lesson.hides = !this.lesson.hides;
    keep("hides", this.lesson.hides);
    this.app.show();
    this.app.tell(t(this.lesson.hides ? "class.hides" : "class.shows"));
  }

  /** Who follows, and who raises a hand: their boards can be looked at, by the teacher alone. */
  heard({ followers, pupils }) {
    const { lesson } = this, raised = (list) => list.filter(({ state }) => state !== null), before = raised(lesson.pupils).length;
    Object.assign(lesson, { followers, pupils });
    if (raised(pupils).length > before) this.app.tell(t("class.raised", { name: raised(pupils).at(-1).name || t("class.nameless") }));
    this.app.show();
  }

  look({ name, state }) {
    this.lesson.looking ??= { before: this.app.snapshot() };
    this.lesson.looking.name = name;
    this.app.change(() => this.app.take(read({ hash: state })), () => this.app.where());
  }

  /** From a pupil's board to the teacher's own. */
  mine() {
    const { before } = this.lesson.looking;
    this.app.change(() => this.app.take(before), () => this.app.where());
    this.lesson.looking = null;
    this.app.show();
  }

  /** Shows the class the pupil's board that is looked at. */
  share() {
    this.lesson.looking = null;
    this.app.show();
  }

  /** The link by which others come: by an address of this host that they reach, where there is one. */
  link() {
    const here = location.origin + location.pathname, others = this.lesson.about?.addresses ?? [], wished = $("class-address").value;
    return `${others.includes(wished) ? wished : here}#follow=${this.teacher.room?.room ?? ""}`;
  }

  // --- A pupil ---

  who() {
    return { pupil: this.number, name: $("pupil-name").value.trim().slice(0, 40), alone: Boolean(this.lesson.alone), state: this.lesson.raised ? this.app.address("") : null };
  }

  say() {
    return this.pupil ? tellOf(this.pupil.room, this.who()) : Promise.resolve(false);
  }

  /** Follows a class; until its first state has come nothing is searched here, as its values may be hidden. */
  follow(room) {
    if (!room || this.pupil) return;
    Object.assign(this.lesson, { follow: room, alone: false, hidden: true });
    this.pupil = new Pupil(room, () => this.who(), (address) => this.shown(address), (how) => this.turn(how === "following" && this.lesson.alone ? "left" : how));
    this.turn("following");
  }

  shown(address) {
    const { app, lesson } = this, said = read({ hash: address });
    this.last = address;
    lesson.hidden = Boolean(said.hide);
    if (lesson.alone) return app.show();
    app.take({ ...said, depth: undefined, view: undefined });
    history.replaceState(null, "", location.pathname + app.address());
    app.show();
    app.tell(app.where());
  }

  /** Whoever changes something by himself follows no more; a button leads back. */
  leave() {
    if (!this.pupil || this.lesson.alone) return;
    this.lesson.alone = true;
    this.turn("left");
    this.say();
  }

  again() {
    this.lesson.alone = false;
    this.turn("following");
    if (this.last !== null) this.shown(this.last);
    this.say();
  }

  async hand() {
    this.lesson.raised = !this.lesson.raised;
    if (!(await this.say())) this.lesson.raised = !this.lesson.raised;
    this.app.show();
  }

  // --- What is shown ---

  show() {
    const { lesson, teacher } = this, { how, about, alone } = lesson, teaching = Boolean(teacher.room), follows = Boolean(this.pupil);
    if (teaching && !lesson.looking) teacher.show(lessonOf(this.app));
    const told = teaching && how !== "lost" ? t(lesson.looking ? "class.private" : lesson.hides ? "class.teaching.hidden" : "class.teaching") : how ? t(`class.${how}`) : "";
    say($("class-told"), told);
    reveal($("class-told"), told);
    for (const [id, is] of Object.entries({ "class-open": !teaching && !follows && about, "class-close": teaching, "class-copy": teaching, "class-hide": teaching, "class-alone": follows && !alone, "class-again": follows && alone, "class-hand": follows })) reveal($(id), is);
    put($("class-hide"), "aria-pressed", Boolean(lesson.hides));
    put($("hand"), "aria-pressed", lesson.raised);
    say($("hand"), t(lesson.raised ? "class.down" : "class.hand"));
    say($("class-count"), teaching ? t("class.count", { n: lesson.followers }) : "");
    this.showAddresses(teaching, about?.addresses ?? []);
    const link = teaching ? this.link() : "", onlyHere = isLocal(link);
    say($("class-help"), t(!about ? "class.none" : onlyHere ? "class.local" : "class.help"));
    this.once("link", [link], () => {
      $("class-link").replaceChildren(...(link ? [made("a", { href: link }, link)] : []));
      $("class-code").replaceChildren(...(link && !onlyHere ? [codeOf(link)] : []));
    });
    const pupils = teaching ? lesson.pupils : [];
    this.once("pupils", pupils, () => $("class-pupils").replaceChildren(...pupils.map((one) => this.row(one))));
  }

  /** Draws something where it is another than before. */
  once(name, what, draw) {
    const sign = JSON.stringify(what);
    if (this.signs[name] !== sign) draw();
    this.signs[name] = sign;
  }

  showAddresses(teaching, addresses) {
    reveal($("class-addresses"), teaching && addresses.length > 1);
    this.once("addresses", addresses, () => $("class-address").replaceChildren(...addresses.map((address) => made("option", { value: address }, address))));
  }

  /** A pupil: who it is, whether it follows, and with a raised hand its board. */
  row(one) {
    const name = one.name || t("class.nameless"), how = t(!one.follows ? "class.gone" : one.alone ? "class.looks" : "class.follows");
    const text = one.state === null ? name : t("class.raised", { name });
    return made("li", { class: one.follows ? "" : "dim" }, made("span", {}, `${text} · ${how}`), one.state === null ? "" : made("button", { type: "button", onclick: () => this.look(one) }, t("class.look")));
  }
}
