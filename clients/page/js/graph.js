// The graph of values over the game, as a picture; the list of moves says the same in words. A variation that is looked at is drawn beside it.
//
// It is one curve, above whose middle Black is better. Points have their scale at the left, in words, whose steps are those of docs/VALUES.md;
// discs at the right, by the side that has them; and a line stands where exact values begin, so that nothing falls where only the unit changes.
// One mark shows where the game was lost.

import { shape } from "./dom.js";
import { STEPS, brief, heightOf, isEnd } from "./scores.js";
import { t } from "./texts.js";

const TOP = 6, BOTTOM = 18, LEFT = 100, RIGHT = 44;
const BANDS = STEPS.length + 1;
const MOST_DISCS = [8, 16, 24, 32, 40, 48, 64]; // at the scale's end

export class Graph {
  /** `chosen` is called with the number of a move of the game that was clicked, 0 for the start. */
  constructor(element, chosen) {
    this.element = element;
    this.shown = { points: [], beside: [], from: 0, current: 0, turn: 0 };
    element.addEventListener("click", (event) => {
      const last = this.last, box = element.getBoundingClientRect();
      const ply = Math.round(((event.clientX - box.left - LEFT) / (box.width - LEFT - RIGHT)) * last);
      if (last > 0) chosen(Math.min(Math.max(ply, 0), this.shown.points.length - 1));
    });
    new ResizeObserver(() => this.draw(true)).observe(element);
  }

  /** The greatest number of a move that has a place. */
  get last() {
    const { points, beside, from } = this.shown;
    return Math.max(points.length - 1, beside.length ? from + beside.length : 0);
  }

  /**
   * `points` has for the start and each move of the game {score}, as black sees it, `beside` the same of a variation behind move `from`; `turn` is
   * the number of the move that is marked, or 0.
   */
  show(shown) {
    this.shown = shown;
    this.draw();
  }

  draw(resized = false) {
    const { points, beside, from, current, turn } = this.shown;
    if (resized || !this.width) {
      [this.width, this.height] = [Math.max(this.element.clientWidth, 200), Math.max(this.element.clientHeight, 80)];
    }
    const { width, height, last } = this, sign = JSON.stringify([points, beside, from, turn, width, height]);
    const x = (at) => LEFT + ((width - LEFT - RIGHT) * at) / Math.max(last, 1);
    if (sign !== this.sign) this.element.replaceChildren(this.picture(x));
    this.sign = sign;
    for (const name of ["x1", "x2"]) this.here.setAttribute(name, x(current));
  }

  picture(x) {
    const { width, height, last } = this, { points, beside, from, turn } = this.shown, half = (height - TOP - BOTTOM) / 2;
    const whole = [...points, ...beside], discs = whole.filter(({ score }) => score && isEnd(score)).map(({ score }) => Math.abs(score.discs));
    const most = MOST_DISCS.find((round) => Math.max(0, ...discs) <= round);
    const y = (score) => TOP + half * (1 - (isEnd(score) ? score.discs / most : heightOf(score)));
    const svg = shape("svg", { viewBox: `0 0 ${width} ${height}`, width, height, role: "img", "aria-label": this.label() });
    this.drawScales(svg, discs.length ? most : 0, y);
    this.here = shape("line", { class: "here", y1: TOP, y2: height - BOTTOM });
    svg.append(this.here);
    const game = points.map((point, at) => ({ ...point, at }));
    this.drawCurve(svg, game, x, y, "curve");
    if (beside.length) this.drawCurve(svg, [game[from], ...beside.map((point, at) => ({ ...point, at: from + 1 + at }))], x, y, "curve beside");
    const first = points.findIndex(({ score }) => score && isEnd(score)), border = (x(first - 1) + x(first)) / 2;
    if (first > 0) svg.append(shape("line", { class: "border", x1: border, x2: border, y1: TOP, y2: height - BOTTOM }));
    const marked = turn && points[turn]?.score;
    if (marked) svg.append(shape("path", { class: "turn", d: `M${x(turn)} ${Math.max(y(marked) - 4, TOP + 10)}l-6 -10h12z` }));
    const step = last > 30 && width < 480 ? 20 : 10;
    for (let at = 0; at <= last; at += step) svg.append(shape("text", { x: x(at), y: height - 4, "text-anchor": "middle" }, String(at)));
    return svg;
  }

  /** Points and discs of some places, each joined with the one before where both have the same unit. */
  drawCurve(svg, some, x, y, name) {
    for (const ends of [false, true]) {
      let path = "";
      some.forEach(({ score, at }, number) => {
        const before = some[number - 1]?.score, sign = before && isEnd(before) === ends ? "L" : "M";
        if (score && isEnd(score) === ends) path += `${sign}${x(at).toFixed(1)} ${y(score).toFixed(1)}h.01`;
      });
      svg.append(shape("path", { class: ends ? `${name} end` : name, d: path }));
    }
  }

  /** The steps of points with their names and whose they are, and where there are discs their greatest number and none. */
  drawScales(svg, most, y) {
    const { width, height } = this, half = (height - TOP - BOTTOM) / 2, place = (step) => TOP + half * (1 - step / BANDS);
    for (let edge = -BANDS; edge <= BANDS; edge += 1) {
      const [y1, y2] = [place(edge), place(edge)];
      svg.append(shape("line", { class: edge ? "grid" : "zero", x1: LEFT, x2: width - RIGHT, y1, y2 }));
    }
    for (let step = 1 - BANDS; step < BANDS; step += 1) {
      const middle = place(step + Math.sign(step) / 2), name = t(`step.${Math.abs(step)}`);
      svg.append(shape("text", { x: LEFT - 6, y: middle + 4, "text-anchor": "end" }, name));
      if (step) svg.append(shape("circle", { class: `whose ${step > 0 ? "black" : "white"}`, cx: 6, cy: middle, r: 4.5 }));
    }
    for (const discs of most ? [most, 0, -most] : []) {
      const score = { sign: "=", discs, side: "X" }, down = discs > 0 ? 9 : discs ? 0 : 4;
      svg.append(shape("text", { x: width - RIGHT + 5, y: y(score) + down }, brief(score)));
    }
  }

  label() {
    const { points } = this.shown, known = points.filter((one) => one.score).length;
    return t("graph.label", { n: points.length - 1, known });
  }
}
