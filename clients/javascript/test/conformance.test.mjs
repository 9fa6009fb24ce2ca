// The rows of clients/conformance.txt, as the clients of the other languages have them too.
import assert from "node:assert/strict";
import fs from "node:fs";
import test from "node:test";
import { parse } from "../src/answers.mjs";
import { Broken, enough, IllegalMove, Position, Refused, Score } from "../src/index.mjs";

const SIGNS = { n: "\n", r: "\r", t: "\t", "\\": "\\" };
const spelled = (text) => text.replaceAll(/\\(x(..)|.)/g, (_, sign, byte) => (byte ? String.fromCharCode(parseInt(byte, 16)) : SIGNS[sign]));
const file = fs.readFileSync(new URL("../../conformance.txt", import.meta.url), "ascii");
const rows = (kind) => {
  const found = file.split("\n").map((line) => line.split("\t")).filter(([first]) => first === kind).map((row) => row.slice(1));
  assert.ok(found.length > 10);
  return found;
};

function wordsOf({ state, job, value, move, entries, numbers, more }) {
  const done = state === "DONE" ? [value, move] : [];
  return [state, ...(job ? [job] : []), ...numbers, ...done, ...entries.map((entry) => entry.join(""))].join(" ") + more;
}

test("answers", () => {
  for (const [jobs, line, answer, result] of rows("answer")) {
    let found;
    try {
      const text = spelled(answer);
      if (!text.endsWith("\n")) throw new Broken("no LF"); // a session's reader gives `parse` nothing then: client.test.mjs
      found = wordsOf(parse(line, text.slice(0, -1), Number(jobs)));
    } catch (fault) {
      if (fault instanceof Refused) found = `REFUSED ${fault.number}`;
      else if (fault instanceof Broken) found = "BROKEN";
      else throw fault;
    }
    assert.equal(found, result, `${line} answered by ${answer}`);
  }
});

test("rules", () => {
  for (const [text, moves] of rows("legal")) assert.equal(Position.parse(text).legalMoves().join(" "), moves, text);
  for (const [text, move, after] of rows("play")) {
    let found;
    try {
      found = Position.parse(text).play(move).text;
    } catch (fault) {
      assert.ok(fault instanceof IllegalMove);
      found = "ILLEGAL";
    }
    assert.equal(found, after, `${text} ${move}`);
  }
});

test("scores", () => {
  for (const [value, sign, ends, text] of rows("score")) assert.equal(String(new Score(Number(value), sign, ends === "1")), text);
});

test("what is never spent", () => {
  for (const [text, depth, grain, segments, nodes] of rows("enough")) {
    assert.deepEqual(enough(Position.parse(text), Number(depth), Number(grain)), nodes === "-" ? null : { segments: Number(segments), nodes: Number(nodes) }, text);
  }
});
