// Names of openings: the customary ones, as players of many countries use them; a name belongs to a position, however it was reached. The
// lines were written down for this page, and each is played when the page begins: one with an illegal move fails its test.

import { SQUARES, START, mirrored, played } from "./rules.js";

export const LINES = `
c4c3 Diagonal; c4e3 Perpendicular; c4c5 Parallel; c4c3d3c5b2 X-Square; c4c3d3c5b3 Snake; c4c3d3c5b3f3 Lollipop;
c4c3d3c5b4 Heath; c4c3d3c5b4e3 Heath-Chimney; c4c3d3c5b4d2d6 Heath-Bat; c4c3d3c5b4d2e2 Iwasaki;
c4c3d3c5b5 Raccoon Dog; c4c3d3c5b6 Hamilton; c4c3d3c5b6c6b5 Lysons; c4c3d3c5d6 Cow; c4c3d3c5d6e3 Chimney;
c4c3d3c5d6f4b4 Cow Bat; c4c3d3c5d6f4b4b6b5c6b3 Bat (Piau); c4c3d3c5d6f4b4b6b5c6f5 Melnikov Bat;
c4c3d3c5d6f4b4e3b3 Bat (Kling); c4c3d3c5d6f4f5 Rose-v-Toth; c4c3d3c5d6f4f5d2 Tanida; c4c3d3c5d6f4f5d2b5 Aircraft;
c4c3d3c5d6f4f5d2g4d7 Sailboat; c4c3d3c5d6f4f5e6c6d7 Maruoka; c4c3d3c5d6f4f5e6f6 Landau; c4c3d3c5f6 Buffalo;
c4c3d3c5f6e2c6 Maruoka Buffalo; c4c3d3c5f6e3c6f5f4g5 Tanida Buffalo; c4c3d3c5f6f5 Hokuriku Buffalo;
c4c3d3e3b2 Snake / Peasant; c4c3e6c5 Wing; c4c3f5c5 Semi-Wing; c4e3f4c5d6e6 Mimura; c4e3f4c5d6f3c6 Shaman;
c4e3f4c5d6f3d3 Inoue; c4e3f4c5d6f3d3c3 Iago; c4e3f4c5d6f3e2 Bhagat; c4e3f4c5d6f3e6 Rose; c4e3f4c5d6f3e6c3d3e2 Flat;
c4e3f4c5d6f3e6c3d3e2b5 Rotating Flat; c4e3f4c5d6f3e6c3d3e2b5f5 Murakami; c4e3f4c5d6f3e6c3d3e2b6f5 Rose-Birdie;
c4e3f4c5d6f3e6c3d3e2b6f5b4f6g5d7 Brightstein; c4e3f4c5d6f3e6c3d3e2d2 Greenberg; c4e3f4c5d6f3e6c6 Ralle;
c4e3f4c5e6 Horse; c4e3f5b4 No-Cat; c4e3f5b4f3 Swallow; c4e3f5e6d3 Italian; c4e3f5e6f4 Cat;
c4e3f5e6f4c5d6c6f7f3 Sakaguchi; c4e3f5e6f4c5d6c6f7g5g6 Berner; c4e3f6b4 Bent Ganglion; c4e3f6e6f5 Tiger;
c4e3f6e6f5c5c3 Stephenson; c4e3f6e6f5c5c3b4 No-Kung; c4e3f6e6f5c5c3c6 Comp'Oth;
c4e3f6e6f5c5c3c6d3d2e2b3c1c2b4a3a5b5a6a4a2 F.A.T. Draw; c4e3f6e6f5c5c3c6d6 Lightning Bolt; c4e3f6e6f5c5c3g5 Kung;
c4e3f6e6f5c5d3 Leader's Tiger; c4e3f6e6f5c5d6 Brightwell; c4e3f6e6f5c5f4g5g4f3c6d3d6 Ganglion;
c4e3f6e6f5c5f4g6f7 Aubrey; c4e3f6e6f5g6 Ishii`.trim().split(/;\s/).map((line) => line.split(/ (.*)/));

const LONGEST = 24; // moves behind which no name is looked for

/** The same text for a position and all its pictures in the board's symmetries. */
function canonical(position) {
  let least = null;
  for (let number = 0; number < 8; number += 1) {
    const cells = new Array(64);
    for (let at = 0; at < 64; at += 1) cells[mirrored(at, number)] = position[at];
    const text = cells.join("");
    if (least === null || text < least) least = text;
  }
  return least + position[65];
}

let names = null;

/** All names by their positions; made when the first one is asked for. */
export function named() {
  if (names) return names;
  names = new Map();
  for (const [moves, name] of LINES) {
    let position = START;
    for (const move of moves.match(/../g)) ({ position } = played(position, SQUARES.indexOf(move)));
    names.set(canonical(position), name);
  }
  return names;
}

/** The name of the opening that led to a node: that of the last position behind it that has one. */
export function openingOf(node) {
  for (let at = node; at?.parent; at = at.parent) {
    if (at.ply > LONGEST) continue;
    at.opening ??= named().get(canonical(at.position)) ?? "";
    if (at.opening) return at.opening;
  }
  return "";
}
