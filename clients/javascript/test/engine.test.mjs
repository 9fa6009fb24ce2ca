// The engine: values, faults, what is given up, and that nothing is left.
import assert from "node:assert/strict";
import { execFileSync } from "node:child_process";
import { cpSync, mkdtempSync, readFileSync, rmSync } from "node:fs";
import { tmpdir } from "node:os";
import { join } from "node:path";
import test from "node:test";
import { Worker } from "node:worker_threads";
import { Analyst, Closed, Engine, Late, Position } from "../src/index.mjs";
import { Rules } from "../../page/engine/module.js";
import { Engine as Pool } from "../../page/engine/pool.js";

const OPENING = Position.opening();
const [OWN, OPP] = [0x0000_0008_1000_0000n, 0x0000_0010_0800_0000n];
const LONG = Position.parse("--------X--------XOOOOO---XOX-----OOXO----XOOOO--XXX---O--X----- X"); // many seconds at depth 12
const bytes = readFileSync(new URL("../../page/engine/page32.wasm", import.meta.url));
const exports = (await WebAssembly.instantiate(bytes, {})).instance.exports;

async function withEngine(options, use) {
  const engine = new Engine(options);
  try {
    await use(engine);
  } finally {
    await engine.close();
  }
}

test("the module's example, and what it refuses", () => {
  assert.equal(exports.analyse(OWN, OPP, 2), -4n * 128n + 19n);
  assert.equal(exports.choice_value(OWN, OPP, 2, 19), -4);
  const [noAnalysis, noValue] = [-(2n ** 63n), -(2 ** 31)];
  for (const depth of [13, 255, 256, 258, 2 ** 31, 2 ** 32 - 1]) {
    assert.equal(exports.analyse(OWN, OPP, depth), noAnalysis);
    assert.equal(exports.choice_value(OWN, OPP, depth, 19), noValue);
  }
  for (const choice of [18, 64, 65, 19 + 64, 19 + 256, 2 ** 32 - 1]) {
    assert.equal(exports.choice_value(OWN, OPP, 2, choice), noValue);
    assert.equal(exports.is_choice(OWN, OPP, choice), 0);
    assert.equal(exports.opp_after(OWN, OPP, choice), 0n);
  }
  assert.equal(exports.choice_value(OWN, OPP, 0, 19), noValue);
  assert.deepEqual([exports.turn(1n, 3n), exports.legal_squares(1n, 3n), exports.analyse(1n, 3n, 1), exports.is_choice(1n, 3n, 64)], [0, 0n, noAnalysis, 0]);
});

test("the rules are those of this package, through whole games", async () => {
  const rules = await Rules.load(bytes);
  for (let game = 0; game < 20; game += 1) {
    let [position, words] = [OPENING, [OWN, OPP]];
    for (let ply = 0; ; ply += 1) {
      const moves = position.legalMoves();
      assert.equal(rules.turn(...words), moves.length === 0 ? "over" : moves[0] === "pass" ? "pass" : "move");
      const squares = [...Array(64).keys()].filter((at) => (rules.legal(...words) >> BigInt(at)) & 1n).map((at) => "abcdefgh"[at % 8] + (1 + (at >> 3)));
      assert.deepEqual(squares, moves[0] === "pass" ? [] : moves);
      if (!moves.length) break;
      const move = moves[(7 * ply + 3 * game) % moves.length], code = move === "pass" ? 64 : "abcdefgh".indexOf(move[0]) + 8 * (move[1] - 1);
      assert.equal(rules.after(...words, 65), null);
      [position, words] = [position.play(move), rules.after(...words, code)];
      const cells = [...position.cells].map((cell) => (cell === "-" ? 0 : cell === position.side ? 1 : 2));
      assert.deepEqual(cells, [...Array(64).keys()].map((at) => ((words[0] >> BigInt(at)) & 1n ? 1 : (words[1] >> BigInt(at)) & 1n ? 2 : 0)));
    }
  }
});

test("it is an analyser", () => withEngine({ workers: 2 }, async (engine) => {
  assert.ok(engine instanceof Analyst);
  const result = await engine.analyse(OPENING, 2);
  assert.deepEqual([result.score.value, result.best, result.table.map(String)], [-4, "d3", ["d3=-4", "c4<-4", "f5<-4", "e6<-4"]]);
  assert.equal((await engine.analyse(OPENING.text, 0)).best, null);
  assert.deepEqual((await engine.analyseAll(OPENING, 6)).map(String), ["d3=0", "c4=0", "f5=0", "e6=0"]);
  assert.equal((await engine.info()).sure, 12);
  assert.ok((await engine.ping()) >= 0);
  const outcomes = [];
  for await (const outcome of engine.analyseMany([OPENING, "nonsense", OPENING.play("d3")], 3)) outcomes.push(outcome);
  assert.deepEqual(outcomes.map(({ index, result: found, fault }) => [index, found?.best ?? fault.name]), [[0, "d3"], [1, "FormatError"], [2, "c5"]]);
  await assert.rejects(engine.analyse(OPENING, 13), RangeError);
  await assert.rejects(engine.analyse(OPENING, 2.5), RangeError);
}));

test("what is given up ends at once, and what follows is answered", () => withEngine({ workers: 1 }, async (engine) => {
  await engine.ping();
  const stop = new AbortController();
  setTimeout(() => stop.abort(new Error("enough")), 100);
  await assert.rejects(engine.analyse(LONG, 12, { signal: stop.signal }), { message: "enough" });
  assert.equal((await engine.analyse(OPENING, 2)).score.value, -4);
  await assert.rejects(engine.analyse(LONG, 12, { timeout: 50 }), Late);
}));

test("close ends what waits", async () => {
  const engine = new Engine({ workers: 2 });
  const waits = Array.from({ length: 5 }, () => assert.rejects(engine.analyse(LONG, 12), Closed));
  await new Promise((resolve) => setTimeout(resolve, 200));
  await engine.close();
  await Promise.all(waits);
  await assert.rejects(engine.analyse(OPENING, 1), Closed);
});

test("a worker that fails is replaced, and what it searched is answered", async () => {
  let begun = 0;
  const begin = () => {
    const number = (begun += 1), worker = new Worker(new URL("../../page/engine/worker.js", import.meta.url));
    const hand = { terminate: () => worker.terminate(), postMessage: (told) => (number <= 2 && !told.bytes ? setTimeout(() => hand.onerror(new Error("lost"))) : worker.postMessage(told)) };
    worker.on("message", (data) => hand.onmessage({ data }));
    return hand;
  };
  const pool = new Pool(await Rules.load(bytes), begin, bytes, 1);
  assert.deepEqual(await pool.ask(OWN, OPP, 2), { value: -4, choice: 19 });
  for (const guess of [-128000, -4, 16, 17, 128000]) assert.deepEqual(await pool.ask(OWN, OPP, 2, { choice: 19, guess }), { value: -4 });
  await assert.rejects(pool.ask(OWN, OPP, 2, { choice: 19, guess: 0.5 }), RangeError);
  assert.ok(begun > 2);
  pool.close();
});

test("a program that forgets to close it ends, and the package as npm packs it is used elsewhere", (t) => {
  const folder = mkdtempSync(join(tmpdir(), "coluwen-"));
  try {
    const where = new URL("..", import.meta.url).pathname, program = "const engine = new Engine({ workers: 2 }); console.log((await engine.analyse(Position.opening(), 6)).best);";
    const run = (source, cwd) => execFileSync(process.execPath, ["--input-type=module", "-e", `import { Engine, Position } from ${JSON.stringify(source)}; ${program}`], { cwd, timeout: 200_000 }).toString();
    assert.equal(run(join(where, "src/index.mjs"), folder), "d3\n");
    try {
      execFileSync("npm", ["--version"]);
    } catch {
      return t.diagnostic("npm isn't here");
    }
    cpSync(where, join(folder, "clients/javascript"), { recursive: true }); // npm changes what it packs, while other tests read it
    cpSync(join(where, "../page/engine"), join(folder, "clients/page/engine"), { recursive: true });
    const name = execFileSync("npm", ["pack", "--silent", "--offline", "--pack-destination", folder], { cwd: join(folder, "clients/javascript") }).toString().trim();
    execFileSync("npm", ["install", "--silent", "--offline", "--no-audit", "--no-fund", "--prefix", folder, join(folder, name)], { cwd: folder });
    assert.equal(run("coluwen", folder), "d3\n");
  } finally {
    rmSync(folder, { recursive: true });
  }
});
