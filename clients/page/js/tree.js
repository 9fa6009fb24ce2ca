// A game with its variations: a tree whose first child is the main line, and the node that is looked at.
//
// As a text a variation stands in parentheses behind the move that it replaces, as in PGN: `f5 d6 (f4 c3) c3` has two answers to f5. A
// glyph (`!`, `?!`, ..) and a comment in braces stand behind the move that they are about: `f5!{The usual one} d6`. Moves are numbered in
// the order of that text, from 1; 0 is the start.

import { SQUARES, START, isOver, played, settled, sideOf } from "./rules.js";

const PASSES = new Set(["pass", "passes", "pa", "ps", "--", "@@"]);
export const GLYPHS = ["!!", "!", "!?", "?!", "?", "??"];

class Node {
  constructor(parent, move, position, passed) {
    Object.assign(this, { parent, move, position, passed, children: [], chosen: 0, glyph: "", comment: "" });
    this.ply = parent ? parent.ply + 1 : 0;
  }

  /** Who made the move. */
  get side() {
    return this.parent ? sideOf(this.parent.position) : "";
  }

  /** Whether it is of the game itself, and not of a variation. */
  get isMain() {
    return !this.parent || (this.parent.children[0] === this && this.parent.isMain);
  }

  /** The move that was played here: the game's own, or in a variation the one that is gone along. */
  get next() {
    return this.children[this.isMain ? 0 : this.chosen] ?? null;
  }
}

export class Tree {
  constructor(start = START) {
    const { position, passed } = settled(start);
    this.start = start;
    this.root = new Node(null, "", position, passed);
    this.current = this.root;
  }

  /** The move from a node, as a child that is there or a new one; null where it isn't legal. */
  grow(node, move) {
    const there = node.children.findIndex((child) => child.move === move);
    if (there >= 0) return node.children[there];
    const after = played(node.position, SQUARES.indexOf(move));
    if (!after) return null;
    node.children.push(new Node(node, move, after.position, after.passed));
    return node.children.at(-1);
  }

  /** Plays here. Whether it was legal. */
  play(move) {
    const node = this.grow(this.current, move);
    if (node) this.go(node);
    return Boolean(node);
  }

  /** Looks at a node; the line that leads there is the one that is gone along. */
  go(node) {
    this.current = node;
    for (let at = node; at.parent; at = at.parent) at.parent.chosen = at.parent.children.indexOf(at);
  }

  back() {
    if (this.current.parent) this.go(this.current.parent);
  }

  /** To the next move; from the end of a variation back to where the game was left. */
  forward() {
    this.go(this.current.next ?? this.left);
  }

  first() {
    this.go(this.root);
  }

  last() {
    while (this.current.next) this.current = this.current.next;
  }

  /** The last move of the game on the way to the current one: where a variation left it. */
  get left() {
    let node = this.current;
    while (!node.isMain) node = node.parent;
    return node;
  }

  /** The variation that is looked at, from where it left the game to its end; none in the game itself. */
  variation() {
    return this.current.isMain ? [] : this.line().filter((node) => !node.isMain);
  }

  /** Another move in the place of this one: the next variation, or the one before. Whether there is one. */
  beside(step) {
    const siblings = this.current.parent?.children ?? [], other = siblings[siblings.indexOf(this.current) + step];
    if (other) this.go(other);
    return Boolean(other);
  }

  /** The moves from the start through the current one to the end of its line. */
  line() {
    const found = [];
    for (let node = this.current; node.parent; node = node.parent) found.unshift(node);
    for (let node = this.current.next; node; node = node.next) found.push(node);
    return found;
  }

  /** The game: its main line. */
  main() {
    const found = [];
    for (let node = this.root.children[0]; node; node = node.children[0]) found.push(node);
    return found;
  }

  /** Takes the current move and all behind it away. */
  remove() {
    const gone = this.current;
    if (!gone.parent) return false;
    this.go(gone.parent);
    this.current.children = this.current.children.filter((child) => child !== gone);
    this.current.chosen = 0;
    return true;
  }

  /** Makes the line of the current move the main line. Whether it wasn't. */
  promote() {
    let changed = false;
    for (let node = this.current; node.parent; node = node.parent) {
      const { children } = node.parent, at = children.indexOf(node);
      if (at > 0) children.unshift(...children.splice(at, 1));
      node.parent.chosen = 0;
      changed ||= at > 0;
    }
    return changed;
  }

  /** All moves in the order of the text. */
  nodes() {
    const found = [];
    const walk = (node) => {
      const [main, ...others] = node.children;
      if (!main) return;
      found.push(main);
      for (const child of others) {
        found.push(child);
        walk(child);
      }
      walk(main);
    };
    walk(this.root);
    return found;
  }

  numberOf(node) {
    return this.nodes().indexOf(node) + 1;
  }

  /** Looks at the move of this number; at the start where there is none. */
  goTo(number) {
    this.go(this.nodes()[number - 1] ?? this.root);
  }

  /** The moves as a text, with or without variations, glyphs and comments, and with this between two moves. */
  text({ variations = true, notes = true, between = "" } = {}) {
    const noted = (node) => (notes ? node.move + node.glyph + (node.comment && `{${node.comment}}`) : node.move);
    const words = (node) => {
      const [main, ...others] = node.children;
      if (!main) return [];
      const beside = variations ? others.map((child) => `(${[noted(child), ...words(child)].join(between)})`) : [];
      return [noted(main), ...beside, ...words(main)];
    };
    return words(this.root).join(between);
  }

  /** Writes a glyph or a comment to a move; braces of a comment would end it. Whether that changed anything. */
  note(node, { glyph = node.glyph, comment = node.comment }) {
    const text = comment.replace(/[{}]/g, "").replace(/\s+/g, " ").trim();
    if (!node.parent || (glyph === node.glyph && text === node.comment)) return false;
    Object.assign(node, { glyph, comment: text });
    return true;
  }
}

/** The words of a text of moves, each with its place. What is neither a move nor numbering is a word too, to be refused. */
function* words(text) {
  const pattern = /\s+|[,;-](?=\s*[a-h][1-8])|\d{1,3}[.)]+|([a-h][1-8])(!!|\?\?|!\?|\?!|!|\?)?|(pass(?:es)?|pa|ps|--|@@)|([()])|\{([^}]*)\}|(\S+?(?=[\s()]|$))/giy;
  for (const found of text.matchAll(pattern)) {
    const [whole, move, glyph = "", pass, bracket, comment, other] = found;
    if (move || pass || bracket || other || comment !== undefined) yield { word: (move ?? whole).toLowerCase(), move: Boolean(move), glyph, comment, place: found.index };
  }
}

/**
 * The tree of a text of moves from a start. What can't be played is told, never passed over in silence: `faults` has for each what is
 * wrong (illegal, pass, move for what is none, or bracket), the word, its place in the text from 0, and the number of the move; what stands behind it in
 * its line isn't read. What stands before it is there.
 */
export function treeOf(text, start = START) {
  const tree = new Tree(start), faults = [], stack = [];
  let [node, dead] = [tree.root, false];
  const fault = (kind, word, place) => {
    if (!dead) faults.push({ kind, word, place, number: node.ply + 1 });
    dead = true;
  };
  for (const { word, move, glyph, comment, place } of words(text)) {
    if (comment !== undefined) {
      if (!dead) tree.note(node, { comment });
    } else if (word === "(") {
      stack.push([node, dead]);
      if (!node.parent) fault("bracket", word, place);
      else if (!dead) node = node.parent;
    } else if (word === ")") {
      if (stack.length) [node, dead] = stack.pop();
      else fault("bracket", word, place);
    } else if (move && !dead) {
      const child = tree.grow(node, word);
      if (child) {
        node = child;
        if (glyph) tree.note(node, { glyph });
      } else fault("illegal", word, place);
    } else if (PASSES.has(word)) {
      if (!node.passed && !isOver(node.position)) fault("pass", word, place);
    } else if (!move) fault("move", word, place);
  }
  if (stack.length) faults.push({ kind: "bracket", word: "(", place: text.length, number: node.ply + 1 });
  tree.goTo(0);
  for (const each of tree.nodes()) each.chosen = 0;
  return { tree, faults };
}
