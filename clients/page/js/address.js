// What an address says: the game with its variations and notes, its names, the move that is looked at, and how it is looked at.
//
// It stands behind `#`, so that no server is told of it and none finds it too long. The older page's form, `?moves=..&depth=..&start=..`,
// is read too.

import { START, positionOf } from "./rules.js";

export const FIELDS = ["black", "white", "event", "date", "result"]; // what is told of a game
const KNOWN = ["moves", "at", "start", ...FIELDS, "depth", "follow", "view", "hide"]; // `hide`: of a class, that values are hidden

/** What an address says, as an object of texts. */
export function read({ search = "", hash }) {
  const words = new URLSearchParams(search), own = new URLSearchParams(hash.replace(/^#/, ""));
  const found = {};
  for (const name of KNOWN) {
    const value = own.get(name) ?? words.get(name);
    if (value) found[name] = value;
  }
  return found;
}

/** The start that a state names: a position, or null where it names none that can be read. */
export const startOf = ({ start }) => (start ? positionOf(start) : START);

/** The same as an address of this page. */
export function written(state) {
  const words = new URLSearchParams();
  for (const name of KNOWN) {
    const value = state[name];
    if (value && !(name === "start" && value === START) && !(name === "at" && !state.moves)) words.set(name, value);
  }
  const text = words.toString().replaceAll("%28", "(").replaceAll("%29", ")").replaceAll("%21", "!").replaceAll("%3F", "?");
  return text ? `#${text}` : "#";
}

/** Changes that can be undone: states as they were before each, and those that were undone. */
export class Changes {
  constructor() {
    this.past = [];
    this.future = [];
  }

  /** Remembers what was there before a change. */
  record(before) {
    this.past.push(before);
    this.future = [];
  }

  undo(now) {
    if (!this.past.length) return null;
    this.future.push(now);
    return this.past.pop();
  }

  redo(now) {
    if (!this.future.length) return null;
    this.past.push(now);
    return this.future.pop();
  }
}
