// The page's parts without a browser: formats, trees, scores, what is judged, openings, QR codes. `node --test clients/page/test.mjs`
import assert from "node:assert/strict";
import childProcess from "node:child_process";
import crypto from "node:crypto";
import fs from "node:fs";
import os from "node:os";
import path from "node:path";
import test from "node:test";
import { read, written } from "./js/address.js";
import { App } from "./js/app.js";
import { Analyst, bestOf, isLined, stepsOf } from "./js/analyst.js";
import * as ggf from "./js/formats/ggf.js";
import { filesRead, textRead, titleOf } from "./js/formats/read.js";
import * as sgf from "./js/formats/sgf.js";
import * as wthor from "./js/formats/wthor.js";
import { lessonOf } from "./js/classroom.js";
import { besides } from "./js/files.js";
import { mistakesOf, totalsOf, verdictOf } from "./js/judge.js";
import { LOST, STARS, starOf } from "./js/measured.js";
import { isPass, pairsOf } from "./js/moves.js";
import { LONGEST_LINE, LONGEST_TEXT, MOST_LINES, textReading } from "./js/formats/read.js";
import { LINES, openingOf } from "./js/openings.js";
import { LEVELS, choiceOf } from "./js/program.js";
import { modules } from "./js/qr.js";
import { questionsOf } from "./js/quiz.js";
import { SQUARES, START, isOver, legal, mirrored, played, positionOf, result, useEngine, wordsOf } from "./js/rules.js";
import { listOf, pointOf, sceneOf, wantedOf } from "./js/scene.js";
import { LIMITS, STEPS, brief, flipped, heightOf, lossOf, scoreOf, share, shownAs, stepOf, tintOf, tournament, words } from "./js/scores.js";
import { newState } from "./js/state.js";
import { LANGUAGES, speak, t } from "./js/texts.js";
import { treeOf } from "./js/tree.js";

const GAME = "f5d6c3d3c4f4f6g5e3f3g4h5";
const WHOLE = whole(7);

/** A whole game by chance, and its seed. */
function whole(seed) {
  let position = START, moves = "";
  for (let number = seed; !isOver(position); number = (number * 1103515245 + 12345) % 2147483648) {
    const squares = legal(position), at = squares[(number >> 8) % squares.length];
    moves += SQUARES[at];
    ({ position } = played(position, at));
  }
  return moves;
}

const plain = (games) => games.map(({ start, moves }) => [start === START ? "" : start, treeOf(moves, start).tree.text()]);

test("the spellings of games and positions", () => {
  const board = ["--------", "--------", "--------", "---OX---", "---XO---", "--------", "--------", "--------"];
  const drawn = `  a b c d e f g h\n${board.map((row, at) => `${at + 1} ${[...row].join(" ")} ${at + 1}`).join("\n")}\nblack to move`;
  const one = START.replace(/X$/, "O");
  for (const [text, games, faults] of [
    [GAME, [["", GAME]], 0], ["1. f5 2. d6 3. c3", [["", "f5d6c3"]], 0], ["F5-D6-C3", [["", "f5d6c3"]], 0], ["f5, d6; c3", [["", "f5d6c3"]], 0], ["1. f5 d6\n2. c3 d3", [["", "f5d6c3d3"]], 0],
    ["f5d6\nf5f6", [["", "f5d6"], ["", "f5f6"]], 0], ["# a comment\nf5d6", [["", "f5d6"]], 0], ["f5!{Good}d6(f4c3)c3", [["", "f5!{Good}d6(f4c3)c3"]], 0],
    ["f5d6c3a1d3", [["", "f5d6c3"]], 1], ["bla", [], 1], ["", [], 1], ["a1", [], 1], [START, [["", ""]], 0], [one, [[one, ""]], 0], [`${one}\nd6`, [[one, "d6"]], 0], [`${START}\nf5d6`, [["", "f5d6"]], 0],
    [board.join("\n"), [["", ""]], 0], [board.join("\n").replaceAll("X", "*").replaceAll("-", "."), [["", ""]], 0], [drawn, [["", ""]], 0], [`${board.join("\n")}\nO`, [[START.replace(/X$/, "O"), ""]], 0],
    ["8/8/8/3OX3/3XO3/8/8/8 X", [["", ""]], 0], [`${one}; d6:+4; c3; % Nice`, [[one, ""]], 0], [`6 ${one}`, [[one, ""]], 0], [`${START.slice(1)}`, [], 1], [`${START.slice(0, -1)}Q`, [], 1], ["8/8/8/3OX3/3XO3/8/8 X", [], 1],
    [`http://127.0.0.1:8047/#moves=f5d6(f4)c3&at=3&black=Anna`, [["", "f5d6(f4)c3"]], 0], ["?moves=f5d6&depth=4", [["", "f5d6"]], 0],
  ]) {
    const found = textRead(text);
    assert.deepEqual(plain(found.games).filter(([start, moves]) => start || moves || !found.faults.length), games, text);
    assert.equal(found.faults.length, faults, text);
    for (const fault of found.faults) assert.ok(!fault.text.includes("⟨"), fault.text);
  }
  const lines = Array.from({ length: MOST_LINES + 1 }, () => "f5d6c3").join("\n"), before = performance.now(), many = textRead(lines);
  assert.deepEqual([many.games.length, many.faults.map((fault) => fault.text)], [0, [`These are ${MOST_LINES + 1} lines, and the board reads ${MOST_LINES} at once.`]]);
  assert.ok(performance.now() - before < 500);
  assert.match(textRead("f5d6\nc3a1").faults[0].text, /^Line 2, column 3: move 4, a1/);
  assert.match(textRead(`${one}\n\nd6\na1`).faults[0].text, /^Line 4, column 1: move 2, a1/);
});

test("each row of spellings is read as Python reads it", () => {
  const rows = fs.readFileSync(new URL("../spellings.txt", import.meta.url), "utf8").split("\n").filter((line) => line && line[0] !== "#").map((line) => line.split("\t"));
  assert.ok(rows.length > 25);
  for (const [text, moves, result] of rows) {
    const { games, faults } = textRead(text.replaceAll("\\n", "\n"));
    if (moves === "fault") assert.ok(faults.length, text);
    else assert.deepEqual([games.map((game) => [treeOf(game.moves).tree.text(), game.result ?? ""]), faults.map((fault) => fault.text)], [[[moves, result]], []], text);
  }
  const whole = fs.readFileSync(new URL("../python/tests/fixtures/transcripts.txt", import.meta.url), "utf8").split("\n").filter((line) => line && line[0] !== "#"), told = whole.map((line) => textRead(line));
  assert.equal(new Set(told.map(({ games: [game] }) => treeOf(game.moves).tree.text())).size, 1);
  assert.deepEqual(told.map(({ games: [game], faults }) => [game.result ?? "", faults.length]).slice(0, 2), [["10", 0], ["10", 0]]);
  assert.match(textRead(`${whole[0].slice(0, 120)} 38-26`).faults[0].text, /the score is said to be 12 for black, and is 10/);
  const [game] = textRead(fs.readFileSync(new URL("../python/tests/fixtures/heads.pgn", import.meta.url), "utf8")).games;
  assert.deepEqual([game.black, game.white, game.event, game.date, game.result, treeOf(game.moves).tree.main().length], ["one", "other", "a place", "2026-11-28", "10", 60]);
});

test("a game keeps its names, date, result and moves through GGF, SGF, WTHOR and an address", () => {
  const { tree } = treeOf(WHOLE), line = tree.main(), info = { black: "Ann; [x]", white: "Bo", event: "Cup", date: "2026-11-27", result: "4" };
  const [one] = [...ggf.read(ggf.write({ ...info, start: START, line }))];
  assert.deepEqual([one.black.replace(/ +/g, " ").trim(), one.white, one.event, one.date, one.result, treeOf(one.moves).tree.text()], ["Ann x", "Bo", "Cup", "2026-11-27", "4", WHOLE]);
  const noted = treeOf("f5!{Good [x]}d6??(f4c3(c6))c3").tree, [two] = [...sgf.read(sgf.write({ ...info, start: START, root: noted.root }))];
  assert.deepEqual([two.black, two.white, two.event, two.date, two.result, two.start, treeOf(two.moves).tree.text()], ["Ann; [x]", "Bo", "Cup", "2026-11-27", "4", START, noted.text()]);
  const files = Object.entries(wthor.write({ ...info, start: START, line, black: "Ann" })).map(([suffix, bytes]) => ({ name: `a.${suffix}`, bytes }));
  const { games: [three], faults } = filesRead(files);
  assert.deepEqual([three.black, three.white, three.event, three.date, treeOf(three.moves).tree.text(), faults.length], ["Ann", "Bo", "Cup", "2026", WHOLE, 0]);
  assert.equal(Number(three.result), tournament(result(line.at(-1).position)));
  const short = treeOf("e6f4e3f6g5d6e7f5c5").tree.main(); // black has all discs, and 51 squares are empty
  assert.equal(filesRead([{ name: "a.WTB", bytes: wthor.write({ start: START, line: short }).wtb }]).games[0].result, "64");
  assert.throws(() => wthor.write({ start: positionOf(START.replace(/X$/, "O")), line }));
  const state = { start: START, moves: WHOLE, at: "3", ...info };
  assert.deepEqual(read({ hash: written(state) }), { moves: WHOLE, at: "3", ...info });
  assert.match(titleOf({ ...info, moves: "f5 d6" }), /^Ann; \[x\] – Bo, Cup, 2026-11-27, \+4, f5 d6$/);
});

test("SGF of others, and what is none", () => {
  const [game] = [...sgf.read("(;FF[4]GM[2]SZ[8]PB[A];B[f5];W[d6](;B[c3]C[a \\] b];W[])(;B[c4]TE[1]))")];
  assert.deepEqual([game.black, treeOf(game.moves).tree.text(), treeOf(game.moves).faults[0]?.kind], ["A", "f5d6c3{a ] b}(c4!)", "pass"]);
  assert.equal(treeOf([...sgf.read("(;GM[2];B[fe];W[df])")][0].moves).tree.text(), "f5d6");
  for (const text of ["(;GM[2];B[f5]", "(;GM[1];B[aa])", "(;GM[2]SZ[10])", "(;GM[2];B)"]) assert.equal(textRead(text).faults.length, 1, text);
  const [set] = [...sgf.read(sgf.write({ start: positionOf(`${"-".repeat(18)}XXX${"-".repeat(6)}OOO${"-".repeat(34)}O`), root: treeOf("").tree.root }))];
  assert.equal(set.start.slice(18, 30), "XXX------OOO");
});

test("GGF of others, one after another", () => {
  const text = "2 (;GM[Othello]PC[GGS/os]DT[2003.12.15]PB[one]PW[other]RE[+4.000]TY[8]BO[8 ---------------------------O*------*O--------------------------- *]B[f5//0.01]W[d6/-1.20/3.5];)(;GM[Othello]B[f5];)";
  const { games, faults } = textRead(text);
  assert.deepEqual([games.length, faults.length, games[0].black, games[0].result, games[0].date], [2, 0, "one", "4", "2003-12-15"]);
  assert.equal(textRead(`${text} (;GM[Go]B[f5];)`).faults.length, 1);
  assert.equal(textRead(`${text} (;GM[Othello]B[f5]`).games.length, 2);
});

test("passes are made by themselves, and refused where a player can move", () => {
  const line = [1, 2, 3, 4, 5, 6, 7, 8].map((seed) => treeOf(whole(seed)).tree.main()).find((one) => one.some(({ passed }) => passed)), pairs = pairsOf(line);
  assert.ok(isOver(line.at(-1).position));
  assert.deepEqual(pairs.flatMap(({ X, O }) => [X, O].filter(Boolean)), line);
  assert.ok(pairs.some(({ X, O }) => !X || !O) && pairs.every(({ X, O }) => (!X || X.side === "X") && (!O || O.side === "O")));
  assert.equal(treeOf("f5 pass d6").faults[0].kind, "pass");
});

test("what a score says", () => {
  speak(["en"]);
  assert.deepEqual([scoreOf(10, false), scoreOf(-4000, false), scoreOf(0, true), scoreOf(1184, false)], [{ sign: "=", points: 10 }, { sign: "=", discs: -2 }, { sign: "=", discs: 0 }, { sign: "=", points: 1184 }]);
  const seen = (side, ...scores) => scores.map((score) => brief(shownAs("mover", score, side)));
  assert.deepEqual(seen("X", { sign: "<", points: 10 }, { sign: "<", discs: 64 }, { sign: ">", discs: 0 }, { sign: "=", discs: -4 }, { sign: "=", points: 0 }), ["≤+10", "≤B+64", "≥D", "W+4", "0"]);
  assert.deepEqual(seen("O", { sign: "=", points: 12 }, { sign: "=", discs: 38 }, { sign: "<", discs: -4 }, { sign: "=", discs: -6 }), ["+12", "W+38", "≥B+4", "B+6"]);
  assert.deepEqual([{ sign: "=", points: 12 }, { sign: "=", discs: 38 }].map((score) => brief(shownAs("black", score, "O"))), ["-12", "W+38"]);
  assert.deepEqual([words({ sign: "=", points: -1, side: "X" }), words({ sign: "<", discs: 4, side: "O" }), words({ sign: "=", discs: -4, side: "O" })], ["-1 point for Black", "at most White by 4 discs", "Black by 4 discs"]);
  assert.deepEqual(flipped({ sign: "<", discs: 4, empty: 2 }), { sign: ">", discs: -4, empty: 2 });
  assert.deepEqual([tournament({ discs: 10, empty: 3 }), tournament({ discs: -10, empty: 3 }), tournament({ discs: 0, empty: 4 })], [13, -13, 0]);
  assert.ok(share({ points: 0 }) === 0.5 && share({ points: 40 }) > share({ points: 10 }) && share({ discs: 64 }) > 0.99 && share({ discs: -2 }) < 0.5);
});

test("grave and weak are said of discs alone, and a loss in points is doubtful at most", () => {
  const points = (n) => ({ sign: "=", points: n }), discs = (n) => ({ sign: "=", discs: n });
  assert.deepEqual([lossOf(points(400), points(-700)).class, lossOf(points(LIMITS.DOUBTFUL), points(0)).class, lossOf(points(LIMITS.DOUBTFUL - 1), points(0)).class], ["doubtful", "doubtful", "good"]);
  assert.deepEqual([lossOf(discs(10), discs(8)).class, lossOf(discs(10), discs(2)).class, lossOf(discs(2), discs(-2)).class, lossOf(discs(2), discs(0)).class, lossOf(discs(3), discs(2)).class], ["weak", "grave", "grave", "grave", "good"]);
  assert.equal(lossOf(discs(10), points(2)), null);
  assert.equal(lossOf(points(2), { sign: "<", points: -9 }), null);
  assert.deepEqual([tintOf(points(5), points(5)), tintOf(points(5), points(0)), tintOf(points(80), points(0)), tintOf(discs(8), { sign: "<", discs: 2 })], [0, 1, 4, 2]);
});

test("mistakes stand in the game's order, facts and opinions each with their own unit", () => {
  const { tree } = treeOf(GAME), line = tree.main(), table = new Map();
  const know = (node, best, score, ends = true) => table.set(node.parent.position, { best: "b", depth: 8, ends, table: new Map([["b", best], [node.move, score]]) });
  const points = (n) => ({ sign: "=", points: n }), discs = (n) => ({ sign: "=", discs: n });
  know(line[0], points(700), points(0));
  know(line[1], discs(2), discs(-2)); // grave, 4
  know(line[2], discs(20), discs(14)); // weak, 6
  know(line[3], discs(20), discs(4)); // grave, 16
  know(line[4], points(LIMITS.DOUBTFUL - 1), points(0)); // too little to be said
  know(line[5], discs(20), discs(2), false); // not searched to the end: no fact
  const analyst = { of: (position) => table.get(position) }, found = mistakesOf(line, analyst);
  assert.deepEqual(found.map(({ node, loss }) => [node.ply, loss.unit, loss.class]), [[1, "points", "doubtful"], [2, "discs", "grave"], [3, "discs", "weak"], [4, "discs", "grave"]]);
  assert.deepEqual(mistakesOf(line, analyst, "O").map(({ node }) => node.ply), [2, 4]);
  assert.deepEqual(totalsOf(line, "X", analyst), { discs: 6, weak: 1, grave: 0, doubtful: 1, inDiscs: 1, inPoints: 2 });
});

/** A state of a game, and an analyst that knows of the positions before its moves what is given: {best: [move, score], own: [move, score], ..}. */
function stateOf(text, known = {}) {
  const state = newState(), analyst = new Analyst({ engine: {} }, () => {});
  state.tree = treeOf(text).tree;
  for (const [ply, { best, ends = false, depth = 8, ...table }] of Object.entries(known)) {
    const { position } = state.tree.main()[ply - 1].parent;
    analyst.learn(position, { depth, best, ends, score: table[best], line: [best], table: new Map(Object.entries(table)) });
  }
  return { state, analyst };
}

const points = (n) => ({ sign: "=", points: n }), discs = (n) => ({ sign: "=", discs: n });

test("a mistake is looked at before its move, with the better ones", () => {
  const { state, analyst } = stateOf("f5d6c3d3c4", { 4: { best: "c4", c4: points(90), f4: points(30), d3: points(10), e3: points(-40) } }), node = state.tree.main()[3];
  state.mistake = node;
  assert.equal(sceneOf(state, analyst).mistake, null); // elsewhere
  state.tree.go(node.parent);
  const { mistake } = sceneOf(state, analyst);
  assert.deepEqual([mistake.node.move, mistake.better, mistake.loss.amount, mistake.loss.class], ["d3", ["c4", "f4"], 80, "doubtful"]);
  assert.deepEqual(listOf(sceneOf(state, analyst)).map((one) => one.node.move), ["d3"]);
});

test("in a variation the game stays, and both its ends lead back", () => {
  const { state, analyst } = stateOf("f5d6(f4c3d6)c3d3"), { tree } = state, moves = (line) => line.map(({ move }) => move).join(" ");
  tree.goTo(tree.nodes().findIndex(({ move, isMain }) => move === "c3" && !isMain) + 1);
  const scene = sceneOf(state, analyst);
  assert.deepEqual([moves(scene.game), moves(scene.variation), scene.left.move], ["f5 d6 c3 d3", "f4 c3 d6", "f5"]);
  assert.equal(wantedOf(state).length, 8); // the start, the game and the variation
  tree.last();
  assert.equal(moves([tree.current]), "d6");
  tree.forward();
  assert.deepEqual([tree.current.move, tree.current.isMain], ["f5", true]);
  tree.go(tree.current.children[1]);
  tree.back();
  tree.forward();
  assert.deepEqual([tree.current.move, tree.current.isMain], ["d6", true]); // the game's own move, and not the variation's
});

test("all values have the sign that is chosen", () => {
  const { state, analyst } = stateOf("f5d6c3", { 1: { best: "f5", f5: points(8) }, 2: { best: "d6", d6: points(20) }, 3: { best: "c3", c3: discs(4), ends: true } });
  const told = () => {
    const scene = sceneOf(state, analyst), game = scene.game;
    return [game.map((node) => brief(scene.seen(scene.of(node.parent.position).table.get(node.move), node.side))), game.slice(0, 2).map((node) => pointOf(scene, node).score).map((score) => score.points ?? score.discs)];
  };
  assert.deepEqual(told(), [["+8", "+20", "B+4"], [-20, 4]]); // the mover's, where nothing else is chosen; the graph is Black's
  state.options.sign = "black";
  assert.deepEqual(told(), [["+8", "-20", "B+4"], [-20, 4]]);
});

/** A game whose last positions have these results for Black, one behind the other; the moves before lost these points, by their numbers. */
function known(text, results, falls = {}) {
  const found = stateOf(text), nodes = [found.state.tree.root, ...found.state.tree.main()], first = nodes.length - results.length;
  nodes.forEach(({ position, children: [next] }, at) => {
    const result = results[at - first], own = result === undefined ? points(0) : discs(position[65] === "X" ? result : 0 - result), move = next?.move ?? "none";
    const played = at < first ? points(-(falls[at + 1] ?? 0)) : discs((position[65] === "X" ? 1 : -1) * (results[at - first + 1] ?? result));
    const table = new Map(result !== undefined && next && played.discs === own.discs ? [[move, own]] : [["best", own], [move, played]]);
    found.analyst.known.set(position, { depth: 8, best: table.keys().next().value, ends: at >= first, score: own, line: [], lines: new Map(), table });
  });
  return [found.state.tree, found.analyst];
}

test("where a game was lost: the last move that gave away what wasn't lost, and before anything is certain the greatest fall", () => {
  const { tree } = treeOf(WHOLE), game = tree.main(), from = game.findIndex(({ position }) => position.slice(0, 64).split("-").length - 1 <= 12), many = game.length - from;
  const told = (results, falls) => {
    const [own, analyst] = known(WHOLE, results, falls), { kind, node, before, after } = verdictOf(own.root, own.main(), analyst);
    return [kind, node?.ply, before, after];
  };
  const row = (...results) => [...results, ...Array(many - results.length).fill(results.at(-1))];
  assert.deepEqual(told(row(4, -2, 6, 6, -8)), ["turn", from + 5, 6, -8]); // the last of three
  assert.deepEqual(told(row(2, 0)), ["draw", from + 2, 2, 0]);
  assert.deepEqual(told(row(0)), ["even", undefined, undefined, undefined]);
  assert.deepEqual(told(row(-6, -10)), ["never", undefined, undefined, -6]);
  const black = game.filter(({ side }) => side === "X").map(({ ply }) => ply), [one, two] = [black[3], black[8]];
  assert.deepEqual(told(row(-6), { [one]: 60, [two]: 90, [game.find(({ side }) => side === "O").ply]: 200 }), ["before", two, undefined, -6]); // the loser's alone
  const [short, analyst] = known("f5d6c3d3", [], { 3: 70 });
  const open = verdictOf(short.root, short.main(), analyst);
  assert.deepEqual([open.kind, open.node.ply], ["open", 3]);
  analyst.known.delete(short.root.position);
  assert.equal(verdictOf(short.root, short.main().slice(0, 2), analyst).kind, "waits");
});

test("from a variation behind a mistake the marks come back, and a step through the game leaves them", () => {
  globalThis.document ??= { getElementById: () => ({ textContent: "" }) };
  globalThis.location ??= { hash: "", pathname: "", search: "" };
  globalThis.history ??= { pushState: () => {}, replaceState: () => {} };
  const app = new App(), { state } = app;
  state.tree = treeOf("f5d6c3d3c4").tree;
  const node = state.tree.main()[3];
  app.showMistake(node);
  app.play("f4");
  assert.deepEqual([state.tree.current.move, state.mistake], ["f4", node]);
  app.toGame();
  assert.deepEqual([state.tree.current, state.mistake], [node.parent, node]);
  app.toGame(); // once more: out of the mistake
  assert.deepEqual([state.tree.current, state.mistake], [node.parent, null]);
  app.showMistake(node);
  app.step(() => state.tree.forward());
  assert.equal(state.mistake, null);
});

test("a search is done when the line is there that is as deep", async () => {
  const asked = [], local = { engine: {}, line: (position, depth, move) => new Promise((done) => asked.push(() => done({ line: [move, "x"], end: null }))) };
  const analyst = new Analyst(local, () => {}), { position } = treeOf("f5").tree.main()[0];
  analyst.learn(position, { depth: 12, best: "d6", score: points(9), line: ["d6"], table: new Map([["d6", points(9)], ["f4", points(5)], ["f6", points(1)]]) });
  analyst.wanted = [{ position, depth: 12 }];
  assert.deepEqual([bestOf(analyst.of(position)), isLined(analyst.of(position), 1)], [["d6", "f4", "f6"], false]);
  analyst.askLine(position);
  asked.shift()();
  await new Promise(setImmediate);
  assert.deepEqual([isLined(analyst.of(position), 1), isLined(analyst.of(position), 3), analyst.of(position).line], [true, false, ["d6", "x"]]);
});

test("what is too large is refused by its size, and what stands round a game is read or named", () => {
  for (const [text, wanted] of [["f5d6c3".repeat(2e6), /^Line 1: this line has 12000000 letters/], [`${"f5d6\n".repeat(4e6)}`, /^The text has 20\.0 million letters/]]) {
    const begun = performance.now(), { games, faults } = textRead(text);
    assert.ok(games.length === 0 && performance.now() - begun < 500);
    assert.match(faults[0].text, wanted);
  }
  assert.ok(LONGEST_LINE < LONGEST_TEXT);
  const steps = textReading(Array(300).fill(GAME).join("\n")); // one game a step
  for (let number = 1; number <= 300; number += 1) assert.deepEqual(steps.next(), { value: number, done: false });
  for (const [text, ...wanted] of [
    ["Taro (B) vs Jiro (W)\nf5d6c3", "Taro", "Jiro"], ["Jiro (W) - Taro (B)\nf5d6c3", "Taro", "Jiro"], ["Taro vs. Jiro\n1. f5 2. d6 3. c3", "Taro", "Jiro"],
    ["黒：太郎　白：次郎\nＦ５Ｄ６Ｃ３", "太郎", "次郎"], ["先手: 太郎\n後手: 次郎\n結果: 34-30\nf5d6c3", "太郎", "次郎", "4"], ["<p>Black: Ann</p><p>White: Bo</p><p>f5 d6 <b>c3</b></p>", "Ann", "Bo"],
  ]) {
    const { games: [game], faults } = textRead(text);
    assert.deepEqual([game.black, game.white, game.result, treeOf(game.moves).tree.text(), faults.length], [wanted[0], wanted[1], wanted[2], "f5d6c3", 0], text);
  }
  assert.equal(treeOf(textRead("https://example.org/g?id=5&t=f5d6c3d3").games[0].moves).tree.text(), "f5d6c3d3");
  assert.match(textRead("https://example.org/game/12345").faults[0].text, /^This is a link to example\.org without moves/);
  assert.match(textRead("<html><body>Nothing</body></html>").faults[0].text, /^This is HTML, a web page, without moves/);
});

test("what is measured is what the table of docs/VALUES.md says", () => {
  const rows = [...fs.readFileSync(new URL("../../docs/VALUES.md", import.meta.url), "utf8").matchAll(/^\| (1\d) \| (\d+) \| (\d+) of (\d+),/gm)].map((row) => row.slice(1).map(Number));
  assert.equal(rows.length, 6 * Object.keys(STARS).length);
  for (const [empty, plies, right, of] of rows) assert.deepEqual(starOf(empty, plies), { empty, share: Math.round((100 * right) / of) });
  assert.deepEqual([starOf(40, 8), starOf(17, 9), starOf(13, 1)], [{ empty: 18, share: STARS[18][3] }, { empty: 16, share: STARS[16][3] }, { empty: 13, share: STARS[13][0] }]);
  assert.ok(LOST.far > LOST.near && LOST.near > LOST.star);
});

test("points have three steps, each a third of the height", () => {
  const [better, much] = STEPS;
  assert.deepEqual([0, better - 1, better, much - 1, much, -much].map((one) => stepOf(points(one))), [0, 0, 1, 1, 2, 2]);
  assert.deepEqual([0, better, much, -better, 4000].map((one) => heightOf(points(one)).toFixed(3)), ["0.000", "0.333", "0.667", "-0.333", "1.000"]);
});

test("sentences begin with a capital", () => {
  for (const [name, text] of Object.entries(LANGUAGES.en)) for (const one of typeof text === "object" ? Object.values(text) : [text]) {
    if (/[.:]$/.test(one) && !name.startsWith("read.")) assert.ok(/^[^a-z]/.test(one), `${name}: ${one}`);
  }
});

test("no pass stands behind a last move", () => {
  const passes = (text) => pairsOf(treeOf(text).tree.main()).filter((pair) => !(pair.X && pair.O)).map(isPass);
  assert.deepEqual([passes("f5"), passes("f5d6c3")], [[false], [false]]);
  const line = [1, 2, 3, 4, 5, 6, 7, 8].map((seed) => treeOf(whole(seed)).tree.main()).find((one) => one.slice(0, -1).some(({ passed }) => passed));
  assert.ok(pairsOf(line).some((pair) => !(pair.X && pair.O) && isPass(pair)));
});

test("where nothing gives values, or nothing is asked, counts end and it is said why", () => {
  const { state, analyst } = stateOf("f5d6"), rest = () => {
    const { rest: why, progress } = sceneOf(state, analyst);
    return [why, progress.known, progress.all];
  };
  analyst.wanted = wantedOf(state);
  assert.deepEqual(rest(), ["", 0, 3]);
  state.options.analyse = false;
  assert.deepEqual(rest(), ["off", 0, 0]);
  Object.assign(state.options, { analyse: true });
  state.stopped = true;
  assert.deepEqual(rest(), ["stopped", 0, 0]);
  state.stopped = false;
  analyst.local = { engine: null, fault: new Error("no WebAssembly") };
  assert.deepEqual(rest(), ["engine", 0, 0]);
  analyst.service = [4];
  assert.equal(rest()[0], "");
});

test("the quiz asks what is certain, and else what is doubtful", () => {
  const { state, analyst } = stateOf("f5d6c3d3c4", { 3: { best: "f4", f4: points(90), c3: points(0) }, 4: { best: "c4", c4: points(90), d3: points(0) } }), ask = () => questionsOf(state.tree.main(), "", analyst).map(({ node }) => node.move);
  assert.deepEqual(ask(), ["c3", "d3"]);
  analyst.learn(state.tree.main()[4].parent.position, { depth: 12, ends: true, best: "b4", line: [], score: discs(8), table: new Map([["b4", discs(8)], ["c4", discs(2)]]) });
  assert.deepEqual(ask(), ["c4"]);
});

test("a class from which values are hidden gets the moves up to here, and nothing of what they are worth", () => {
  const { state } = stateOf("f5!{Good}d6??(f4c3)c3d3"), app = { state, address: () => "#all" };
  state.tree.goTo(2);
  assert.equal(state.tree.current.move, "d6");
  assert.equal(lessonOf(app), "#all");
  state.lesson.hides = true;
  assert.deepEqual(read({ hash: lessonOf(app) }), { moves: "f5d6", at: "2", hide: "1" });
  const pupil = newState();
  pupil.lesson.hidden = true;
  const scene = sceneOf(pupil, new Analyst({ engine: {} }, () => {}));
  assert.deepEqual([scene.rest, scene.veil, scene.known], ["hidden", "class", undefined]);
});

test("what is saved is the game, and what a format doesn't have is counted", () => {
  const { tree } = treeOf("f5!d6{Good}(f4c3)(f6)c3");
  tree.goTo(3);
  assert.deepEqual([besides(tree), tree.current.isMain], [{ variations: 2, notes: 2 }, false]);
  assert.match(ggf.write({ start: START, line: tree.main() }), /B\[f5\]W\[d6\]B\[c3\];\)/);
});

test("the eight pictures of a square", () => assert.deepEqual([0, 1, 2, 3, 4, 5, 6, 7].map((number) => mirrored(1, number)), [1, 57, 6, 62, 8, 15, 48, 55]));

test("openings have legal moves, and a name belongs to a position", () => {
  for (const [moves, name] of LINES) {
    const { tree, faults } = treeOf(moves);
    assert.ok(!faults.length && name, `${moves} ${name}`);
    const found = openingOf(tree.main().at(-1));
    const mirror = moves.match(/../g).map((move) => SQUARES[mirrored(SQUARES.indexOf(move), 7)]).join("");
    assert.equal(openingOf(treeOf(mirror).tree.main().at(-1)), found, mirror);
    assert.ok(LINES.some(([, one]) => one === found), found);
  }
  assert.equal(openingOf(treeOf("f5f6e6f4").tree.main().at(-1)) !== "", true);
  assert.equal(openingOf(treeOf("").tree.root), "");
});

test("steps deepen by two, and the end is searched at once", () => {
  assert.deepEqual(stepsOf(START, 8), [2, 4, 6, 8]);
  assert.deepEqual(stepsOf(START, 5), [2, 4, 5]);
  assert.deepEqual(stepsOf(`${"X".repeat(52)}${"-".repeat(12)} O`, 12), [12]);
});

test("how far an analysis is: how many positions are known as deep as they are wanted, and the time that the others take", () => {
  const analyst = new Analyst({ engine: {} }, () => {}), positions = ["f5", "f5d6", "f5d6c3"].map((moves) => treeOf(moves).tree.main().at(-1).position);
  const learn = (at, depth) => analyst.learn(positions[at], { depth, best: "", line: [], table: new Map() });
  analyst.wanted = positions.map((position) => ({ position, depth: 8 }));
  const before = analyst.progress();
  learn(0, 8);
  learn(1, 6);
  const after = analyst.progress();
  assert.deepEqual([before.known, before.all, after.known, after.all], [0, 3, 1, 3]);
  assert.ok(before.left > after.left && after.left > 0);
  learn(1, 8);
  learn(2, 8);
  assert.deepEqual(analyst.progress(), { known: 3, all: 3, left: 0 });
});

test("a level chooses the best, and by chance another", () => {
  const found = { best: "a", table: new Map([["a", { points: 9 }], ["b", { points: 5 }], ["c", { points: -50 }]]) };
  const by = (...numbers) => () => numbers.shift();
  assert.deepEqual([choiceOf(found, 50, by(0.6)), choiceOf(found, 50, by(0.4, 0)), choiceOf(found, 50, by(0.4, 0.99)), choiceOf(found, 0, by(0))], ["a", "b", "c", "a"]);
  assert.ok(LEVELS.every(([depth, mistakes], at) => at === 0 || depth > LEVELS[at - 1][0] || mistakes < LEVELS[at - 1][1]));
});

test("the rules by the module are those of the page", async () => {
  const { Rules } = await import("./engine/module.js"), rules = await Rules.load(fs.readFileSync(new URL("engine/page32.wasm", import.meta.url)));
  for (const seed of [1, 2, 3]) {
    useEngine(null);
    const moves = whole(seed), { tree } = treeOf(moves), own = tree.main().map(({ position }) => [position, legal(position)]);
    useEngine(rules);
    assert.deepEqual(treeOf(moves).tree.main().map(({ position }) => [position, legal(position)]), own);
    for (const [position, squares] of own) assert.equal(rules.legal(...wordsOf(position)), squares.reduce((word, at) => word | (1n << BigInt(at)), 0n));
  }
  useEngine(null);
});

test("a byte of a module that changed is noticed, also where nothing is built", () => {
  const folder = fs.mkdtempSync(path.join(os.tmpdir(), "page")), copy = path.join(folder, "clients/page");
  const checked = () => childProcess.spawnSync("/usr/bin/python3", [path.join(copy, "build"), "--check"], { env: { PATH: "/nowhere" }, encoding: "utf8" });
  try {
    fs.cpSync(new URL("engine", import.meta.url), path.join(copy, "engine"), { recursive: true });
    fs.copyFileSync(new URL("build", import.meta.url), path.join(copy, "build"));
    assert.equal(checked().status, 0, checked().stderr);
    for (const name of ["page32.wasm", "page64.wasm"]) {
      const file = path.join(copy, "engine", name), bytes = fs.readFileSync(file), at = bytes.length >> 1;
      fs.writeFileSync(file, bytes.map((byte, place) => (place === at ? byte ^ 1 : byte)));
      const { status, stderr } = checked();
      assert.ok(status === 1 && stderr.includes(`${name} has another sum`), stderr);
      fs.writeFileSync(file, bytes);
    }
  } finally {
    fs.rmSync(folder, { recursive: true });
  }
});

test("a QR code has the size of its version, its finders and one dark module", () => {
  for (const [length, version] of [[10, 1], [14, 1], [15, 2], [26, 2], [62, 4], [106, 6], [122, 7], [213, 10]]) {
    const cells = modules("a".repeat(length)), size = 17 + 4 * version;
    assert.equal(cells.length, size, String(length));
    assert.ok(cells.every((row) => row.every((cell) => typeof cell === "boolean")) && cells[size - 8][8]);
  }
  assert.throws(() => modules("a".repeat(214)));
  const sum = (text) => crypto.createHash("sha256").update(modules(text).flat().map(Number).join("")).digest("hex").slice(0, 16);
  assert.deepEqual([sum("http://192.168.1.5:8047/#follow=abcdefghij"), sum("b".repeat(180)), sum("a")], ["47dce2446c7dcdff", "9317e2882c7b30df", "2e7add7dfd3288d4"]); // all are read by zbarimg
});

test("all languages say the same things, and every text that is named is there", () => {
  const places = (text) => [...new Set(JSON.stringify(text).match(/\{\w+\}/g) ?? [])].sort();
  for (const [language, table] of Object.entries(LANGUAGES)) {
    assert.deepEqual(Object.keys(table), Object.keys(LANGUAGES.en), language);
    for (const [name, text] of Object.entries(table)) {
      assert.ok(text, name);
      assert.deepEqual(places(text), places(LANGUAGES.en[name]), `${language} ${name}`);
      if (typeof text === "object") assert.ok(new Intl.PluralRules(language).resolvedOptions().pluralCategories.every((form) => form in text), `${language} ${name}`);
    }
  }
  const folder = new URL("js/", import.meta.url), formats = new URL("formats/", folder);
  const source = [...[folder, formats].flatMap((one) => fs.readdirSync(one).filter((name) => name.endsWith(".js")).map((name) => new URL(name, one))), new URL("index.html", import.meta.url)].map((name) => fs.readFileSync(name, "utf8")).join("\n");
  for (const name of [...source.matchAll(/\bt\("([^"$]+)"|data-(?:text|label|hint)="([^"]+)"/g)].map(([, one, two]) => one ?? two)) assert.ok(LANGUAGES.en[name], name);
  const used = (name) => source.includes(`"${name}"`) || ["read.", "glyph.", "export.", "state.", "class.", "mistakes.", "legend.", "said.", "quiz.", "strip.", "sign.", "why.", "step.", "value.", "letter.", "unit.", "moves.lost."].some((start) => name.startsWith(start));
  assert.deepEqual(Object.keys(LANGUAGES.en).filter((name) => !used(name)), []);
  assert.equal(t("no.such"), "⟨no.such⟩");
});
