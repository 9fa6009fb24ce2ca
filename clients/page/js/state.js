// The page's one state: the game and its variations, what is looked at, and what is chosen. Whatever is shown follows from it and from what is known
// of positions (`sceneOf`); no view asks the document or another view.

import { DEEPEST } from "./analyst.js";
import { keep, kept } from "./keep.js";
import { Tree } from "./tree.js";

export const DEPTH = DEEPEST; // of the position that is looked at, where nothing else is wished

/** What one chooses, and what it is at first. */
const OPTIONS = {
  analyse: true, game: true, depth: DEPTH,
  sign: "mover", // of points: that of the player who moves, or Black's
  three: false, // the three best lines
  values: true, tints: true, line: true, bar: true,
  turned: 0, // quarter turns of the board
  answers: false, // printed with the sheet
  address: "", // of the page, as others reach it
  level: 2, seat: "X", matchValues: false, // against the program
  side: "", // whose mistakes are listed and asked: both players', or one's
  saveAs: "txt",
};
const KEPT = ["sign", "three", "values", "tints", "line", "bar", "turned", "answers", "address"]; // by the browser

/** A state as it is when the page begins, with the options that the browser has kept. */
export function newState() {
  const there = kept("options") ?? {}, own = KEPT.filter((name) => typeof there[name] === typeof OPTIONS[name]);
  return {
    tree: new Tree(), info: {}, faults: [], found: [],
    options: { ...OPTIONS, ...Object.fromEntries(own.map((name) => [name, there[name]])) },
    setting: false, stopped: false, hint: "",
    mistake: null, // a move of the game, where its better ones are looked at
    match: null, // a game against the program: {side, level, fault}
    quiz: null, // {questions, at, right, answered, open, said}
    lesson: { follow: "", how: "", alone: false, raised: false, hidden: false, hides: false, looking: null, followers: 0, pupils: [], about: null }, // a class
  };
}

export const keepOptions = (options) => keep("options", Object.fromEntries(KEPT.map((name) => [name, options[name]])));
