// The rows of formats that Python and JavaScript read alike.
import assert from "node:assert/strict";
import fs from "node:fs";
import test from "node:test";
import { FormatError, games, Position } from "../src/index.mjs";

test("each row of the formats", () => {
  const rows = fs.readFileSync(new URL("../../formats.jsonl", import.meta.url), "utf8").trim().split("\n").map((line) => JSON.parse(line));
  assert.ok(rows.length > 20);
  for (const [kind, text, ...wanted] of rows) {
    const shown = (options) => games(text, options).map((one) => {
      if (one instanceof FormatError) return one.message;
      const { start, moves, black, white, event, date, result, isWhole } = one;
      return { start: start.text, moves: moves.join(""), black, white, event, date, result, isWhole };
    });
    const whole = wanted.map((one) => (typeof one === "string" ? one : { start: Position.opening().text, black: "", white: "", event: "", date: "", result: null, isWhole: true, ...one }));
    assert.deepEqual(shown({ kind }), whole, text);
    assert.deepEqual(shown(), whole, text);
  }
});

test("a file's name stands in its faults, and a game has its last position", () => {
  assert.equal(games("f5a1", { file: "g.txt" })[1].message, "g.txt:1:3: move 2, a1: white can't play there");
  const [game] = games("f5d6");
  assert.ok(game.final.equals(Position.opening().play("f5").play("d6")) && game.start.equals(Position.opening()));
});
