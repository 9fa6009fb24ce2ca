// Pictures of a board: an SVG's element, its text, and the same painted as PNG.

import { shape } from "./dom.js";
import { SQUARES, legal } from "./rules.js";
import { brief } from "./scores.js";

const SIDE = 440, EDGE = 30, CELL = 50;
const COLOURS = { felt: "#1b6b3a", line: "#0b3a1d", black: "#111111", white: "#f5f5f5", ink: "#222222", best: "#ffe066", text: "#ffffff" };
const INK = { ...COLOURS, felt: "#ffffff", line: "#444444", white: "#ffffff", best: "#000000", text: "#000000" }; // for paper

/**
 * What a picture has, as shapes that SVG and a canvas both can draw: discs, coordinates, and what is known of each legal square; `numbers`
 * has numbers that stand on squares, and `ink` says that it is printed.
 */
function* shapesOf({ position, table = new Map(), seen = (score, side) => ({ ...score, side }), best = "", last = "", numbers = new Map(), ink = false }) {
  const colours = ink ? INK : COLOURS;
  yield { kind: "rect", x: 0, y: 0, width: SIDE, height: SIDE, fill: "#ffffff" };
  const free = new Set(legal(position));
  for (const [at, name] of SQUARES.entries()) {
    const x = EDGE + CELL * (at % 8), y = EDGE + CELL * (at >> 3), cx = x + CELL / 2, cy = y + CELL / 2, cell = position[at];
    const own = free.has(at) && table.get(name), score = own && seen(own, position[65]), number = numbers.get(name);
    yield { kind: "rect", x, y, width: CELL, height: CELL, fill: colours.felt, stroke: colours.line, width_: 1 };
    if (cell !== "-") yield { kind: "circle", cx, cy, r: 20, fill: cell === "X" ? colours.black : colours.white, stroke: colours.line };
    if (name === last) yield { kind: "circle", cx, cy, r: 5, fill: "#e8590c" };
    if (free.has(at) && name === best) yield { kind: "rect", x: x + 3, y: y + 3, width: CELL - 6, height: CELL - 6, stroke: colours.best, width_: 3 };
    if (number) yield { kind: "text", x: cx, y: cy + 6, size: 17, fill: cell === "X" ? "#ffffff" : "#111111", text: String(number) };
    else if (score) yield { kind: "text", x: cx, y: cy + 5, size: brief(score).length > 4 ? 11 : 15, fill: colours.text, text: brief(score) };
    else if (free.has(at) && !numbers.size) yield { kind: "circle", cx, cy, r: 5, stroke: colours.text, width_: 2 };
  }
  for (let at = 0; at < 8; at += 1) {
    yield { kind: "text", x: EDGE + CELL * (at + 0.5), y: 22, size: 14, fill: colours.ink, text: "abcdefgh"[at] };
    yield { kind: "text", x: 16, y: EDGE + CELL * (at + 0.6), size: 14, fill: colours.ink, text: String(at + 1) };
  }
}

/** The board as an SVG. */
export function picture(what) {
  const svg = shape("svg", { xmlns: "http://www.w3.org/2000/svg", viewBox: `0 0 ${SIDE} ${SIDE}`, width: SIDE, height: SIDE, "font-family": "sans-serif" });
  for (const { kind, text, size, width_, fill = "none", ...more } of shapesOf(what)) {
    const anchor = kind === "text" ? { "text-anchor": "middle", "font-size": size } : {};
    svg.append(shape(kind, { ...more, ...anchor, fill, "stroke-width": width_ }, ...(text ? [text] : [])));
  }
  return svg;
}

/** The same as a text. */
export const pictureText = (what) => new XMLSerializer().serializeToString(picture(what));

/** The same as a PNG, so many times as large. */
export function painted(what, times = 2) {
  const canvas = document.createElement("canvas"), paper = canvas.getContext("2d");
  canvas.width = canvas.height = SIDE * times;
  paper.scale(times, times);
  paper.textAlign = "center";
  for (const { kind, x, y, cx, cy, r, width, height, text, size, fill, stroke, width_ = 1 } of shapesOf(what)) {
    Object.assign(paper, { fillStyle: fill ?? "#0000", strokeStyle: stroke ?? "#0000", lineWidth: width_, font: `${size ?? 10}px sans-serif` });
    paper.beginPath();
    if (kind === "rect") paper.rect(x, y, width, height);
    else if (kind === "circle") paper.arc(cx, cy, r, 0, 2 * Math.PI);
    else paper.fillText(text, x, y);
    if (fill && kind !== "text") paper.fill();
    if (stroke) paper.stroke();
  }
  return new Promise((done) => canvas.toBlob(done, "image/png"));
}
