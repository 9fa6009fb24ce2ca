// What the rows don't say: the limits of the core, by moments that the tests choose; bulk questions; and what is checked and told.
import assert from "node:assert/strict";
import { execFile } from "node:child_process";
import fs from "node:fs";
import net from "node:net";
import os from "node:os";
import path from "node:path";
import readline from "node:readline";
import test from "node:test";
import { promisify } from "node:util";
import { Core } from "../src/core.mjs";
import { Analyst, Client, Closed, ColuwenError, Entry, FormatError, IllegalMove, Late, Move, Position, Score, TooDeep, Unreachable, connect } from "../src/index.mjs";

const OPENING = Position.opening();

/** A core, and what it says: `step` tells it something at a moment, and gives what comes out, seats by the order of their opening. */
function told(options) {
  const [core, seats] = [new Core(options), []];
  return { core, seats, step(call, now, ...words) {
    if (typeof call === "string") core[call](...words, now);
    return core.take().map(([what, one, detail]) => {
      if (what === "open") seats.push(one);
      return [what, seats.includes(one) ? seats.indexOf(one) : one, detail?.trim?.() ?? detail];
    });
  } };
}
const job = (depth = 6, more = {}) => ({ kind: "job", position: OPENING.text, depth, ...more });
const LINE = `ASK 6 ${OPENING}`;

test("no more sessions than are allowed, and no more questions in one than ahead", () => {
  const { step, seats } = told({ sessions: 3, ahead: 2 });
  for (let count = 0; count < 20; count += 1) step("ask", 0, job());
  assert.equal(seats.length, 3);
  const lines = seats.flatMap((seat) => [...step("opened", 1, seat), ...step("received", 2, seat, "WELCOME 256 8192\n")]);
  assert.deepEqual(lines.filter(([what]) => what === "send").map(([, seat, line]) => [seat, line.split(" ")[0]]), [0, 1, 2].flatMap((seat) => [[seat, "HELLO"], [seat, "ASK"]]));
  assert.deepEqual(step("received", 3, seats[0], "JOB 1\n"), [["send", 0, LINE]]);
  assert.deepEqual(step("received", 4, seats[0], "JOB 2\n"), [["send", 0, "GET 1"]]);
  assert.equal(seats.length, 3);
});

test("a question's session is kept for the next, and one that lacks nodes is ended for one that has them", () => {
  const { step, seats } = told({ sessions: 1 });
  step("ask", 0, job());
  for (const bytes of [null, "WELCOME 256 8192\n", "JOB 1\n", "SPENT 1\n"]) step(bytes ? "received" : "opened", 1, ...[seats[0], bytes].filter(Boolean));
  step("received", 2, seats[0], "BYE\n");
  for (const bytes of [null, "WELCOME 1024 65536\n", "JOB 1\n", "DONE 1 5 d3\n", "TABLE 1 d3=5\n"]) step(bytes ? "received" : "opened", 3, ...[seats[1], bytes].filter(Boolean));
  assert.deepEqual(step("ask", 4, job(2)), [["send", 1, `ASK 2 ${OPENING}`]]);
  assert.equal(seats.length, 2);
});

test("who is given up leaves the others alone", () => {
  const { step, seats } = told({ sessions: 1, ahead: 3 });
  const [first, second, third] = [job(), job(), job()];
  for (const one of [first, second, third]) step("ask", 0, one);
  for (const bytes of [null, "WELCOME 256 8192\n", "JOB 1\n", "JOB 2\n"]) step(bytes ? "received" : "opened", 1, ...[seats[0], bytes].filter(Boolean));
  assert.deepEqual(step("drop", 2, second, new ColuwenError("x")), [["settled", second, undefined]]);
  assert.deepEqual(step("received", 3, seats[0], "JOB 3\n"), [["send", 0, "CANCEL 2"]]);
  assert.deepEqual(step("received", 4, seats[0], "CANCELLED 2\n"), [["send", 0, "GET 1"]]);
  assert.deepEqual(step("received", 5, seats[0], "DONE 1 5 d3\n"), [["send", 0, "TABLE 1"]]);
  assert.equal(step("received", 6, seats[0], "TABLE 1 d3=5\n")[0][1], first);
});

test("time goes from when a job is asked, and not while it waits for its turn", () => {
  const { core, step, seats } = told({ sessions: 1, ahead: 1 });
  const [first, second] = [job(6, { timeout: 1000 }), job(6, { timeout: 1000 })];
  for (const one of [first, second]) step("ask", 0, one);
  for (const bytes of [null, "WELCOME 256 8192\n", "JOB 1\n", "PENDING 1\n"]) step(bytes ? "received" : "opened", 500, ...[seats[0], bytes].filter(Boolean));
  step("passed", 1499);
  step("received", 1499, seats[0], "PENDING 1\n");
  assert.ok(!first.isSettled && core.next <= 1500);
  assert.deepEqual(step("passed", 1500), [["send", 0, "CANCEL 1"]]);
  step("received", 1501, seats[0], "CANCELLED 1\n");
  assert.ok(first.fault instanceof Late && !second.isSettled && second.until === 2501);
});

test("where a server has room for fewer sessions, those do the work", () => {
  const { step, seats } = told({ sessions: 2, ahead: 1 });
  const questions = [job(), job()];
  for (const one of questions) step("ask", 0, one);
  step("opened", 1, seats[0]);
  step("opened", 1, seats[1]);
  step("received", 2, seats[0], "WELCOME 256 8192\n");
  assert.deepEqual(step("received", 3, seats[1], "ERR 14\n"), [["close", 1, undefined]]);
  for (const bytes of ["JOB 1\n", "DONE 1 5 d3\n", "TABLE 1 d3=5\n", "JOB 2\n", "DONE 2 6 d3\n", "TABLE 2 d3=6\n"]) step("received", 4, seats[0], bytes);
  assert.deepEqual(questions.map(({ found }) => found.value), [5, 6]);
  assert.equal(seats.length, 2);
});

test("silence is told once, and lasts twice as long each time, until nothing was heard for so long", () => {
  const { core, step, seats } = told({ sessions: 1, silence: 1000, outage: 10_000 });
  const question = job();
  let now = 0;
  step("ask", now, question);
  for (const silence of [1000, 2000, 4000, 8000, 10_000]) {
    const seat = seats.at(-1);
    step("opened", now, seat);
    step("received", now, seat, "WELCOME 256 8192\n");
    assert.equal(core.next, now + silence);
    now += silence;
    step("passed", now);
  }
  assert.ok(question.fault instanceof Unreachable);
});

/** A server that is right in its form; `ended` says of a line's depth and position how a job ends. */
function sound(ended = () => "DONE") {
  const jobs = [];
  return (line) => {
    const [word, ...rest] = line.split(" ");
    if (word === "HELLO" || word === "RESERVE") return `${word === "HELLO" ? "WELCOME" : "RESERVED"} ${rest[0]} ${rest[1]}\n`;
    if (word === "ASK") return `JOB ${jobs.push(ended(Number(rest[0]), rest.slice(1).join(" ")))}\n`;
    if (word === "CANCEL") return (jobs[rest[0] - 1] = "CANCELLED"), `CANCELLED ${rest[0]}\n`;
    if (word === "GET") return `${jobs[rest[0] - 1]} ${rest[0]}${jobs[rest[0] - 1] === "DONE" ? " 5 d3" : ""}\n`;
    return { TABLE: `TABLE ${rest[0]} d3=5 c4<-1\n`, QUOTA: "QUOTA 256 8000 9000\n", LIVE: "LIVE 0 0\n", INFO: "INFO 2 1024 65536 0 0 1.2.3\n", BYE: "BYE\n" }[word];
  };
}

/** Runs a trial with a server and a client of it; `answers` makes the function that answers a connection's lines, where null ends it. */
async function having(answers, options, trial) {
  const heard = [];
  const server = net.createServer({ noDelay: true }, (stream) => {
    const answerOf = answers();
    stream.on("error", () => {});
    readline.createInterface({ input: stream }).on("line", (line) => {
      heard.push(line);
      const answer = answerOf(line);
      if (answer === null) stream.destroy();
      else if (answer !== undefined) stream.write(answer);
    }).on("error", () => {});
  });
  await new Promise((resolve) => { server.listen(0, "127.0.0.1", resolve); });
  const client = new Client({ port: server.address().port, silence: 5000, ...options });
  try {
    await trial(client, heard, server.address().port);
  } finally {
    await client.close();
    server.close();
  }
}

test("results are typed and frozen", () => having(() => sound(), {}, async (client) => {
  assert.ok(client instanceof Analyst && client instanceof EventTarget);
  const found = await client.analyse(String(OPENING), 6);
  assert.deepEqual([found.score.value, found.best, found.table.map(String), found.position.equals(OPENING)], [5, "d3", ["d3=5", "c4<-1"], true]);
  assert.ok(found.table[1] instanceof Entry && Object.isFrozen(found) && Object.isFrozen(found.table) && found.milliseconds >= 0);
  assert.deepEqual(await client.info(), { grain: 2, sure: 6, mostly: 7, version: "1.2.3" });
  assert.deepEqual(Object.keys(client), []);
  assert.ok((await client.ping()) < 5000);
  await client[Symbol.asyncDispose ?? Symbol.for("Symbol.asyncDispose")]();
  await assert.rejects(client.ping(), Closed);
}));

test("scores are ordered, and seen by each player", () => {
  const [less, more] = [new Score(-4, "<", false, "O"), new Score(8000, ">", true, "O")];
  assert.ok(less < more && Score.compare(less, more) < 0 && [more, less].sort(Score.compare)[0] === less);
  assert.deepEqual([more.mover, more.white, more.black, more.unit, less.black, less.unit], [4, 4, -4, "discs", 4, "points"]);
  const flipped = more.flip();
  assert.deepEqual([flipped.value, flipped.sign, flipped.side, flipped.black, flipped.mover, String(flipped)], [-8000, "<", "X", -4, -4, "at most -4 discs"]);
  assert.throws(() => new Score(1.5), RangeError);
  assert.equal(OPENING.play("d3").flip().side, "X");
});

test("a text that is no position says its column", () => {
  const cells = OPENING.cells;
  for (const [text, column, why] of [["n", 1, "'n' spells no cell"], [`${cells.slice(0, 9)}é`, 10, "'é' spells no cell"], [`${cells} -`, 66, "behind the 64 cells stands no side to move, X or O"],
    [`${cells} XX`, 67, "behind the side to move stands more"], [cells, 65, "a position has 64 cells and the side to move, and here are 64 signs"], ["constructor", 1, "'c' spells no cell"], ["", 1, "a position has 64 cells and the side to move, and here are 0 signs"]]) {
    assert.throws(() => Position.parse(text), (fault) => fault instanceof FormatError && fault.message === `text:${column}: ${why}` && fault.text === why && fault.column === column && fault.line === 0 && fault.file === "");
  }
  assert.ok(Position.parse(`\n${cells.replaceAll("-", ".").toLowerCase()}\n*`).equals(OPENING));
});

test("a move is a word, a number or a Move", () => {
  for (const move of ["d3", "D3", 19, new Move("D3"), new Move(19), new Move(new Move(19))]) assert.ok(OPENING.play(move).equals(OPENING.play("d3")));
  const mustPass = new Position(`XO${"-".repeat(62)}`, "O");
  for (const move of ["pass", 64, new Move(64), new Move("Pass")]) assert.equal(mustPass.play(move).side, "X");
  assert.deepEqual([new Move("h8").square, new Move("pass").square, String(new Move(0)), `${new Move(64)}`], [63, 64, "a1", "pass"]);
  for (const wrong of [65, -1, 1.5, null, undefined, {}, "i9", true]) for (const call of [(move) => OPENING.play(move), (move) => new Move(move)]) assert.throws(() => call(wrong), IllegalMove);
});

test("values as they deepen", () => having(() => sound((depth) => (depth > 8 ? "SPENT" : "DONE")), { segments: 64, nodes: 9000 }, async (client) => {
  const depths = async (...words) => { const found = []; for await (const { depth } of client.deepen(...words)) found.push(depth); return found; };
  assert.deepEqual([await depths(OPENING, 7), await depths(OPENING), await depths(OPENING, 1), await depths(OPENING, 0), await depths(new Position("X".repeat(40) + "O".repeat(19) + "-".repeat(5)))], [[2, 4, 6, 7], [2, 4, 6, 8], [1], [0], [2, 4, 5]]);
  await assert.rejects(depths(OPENING, 10), TooDeep);
  assert.match(String(client), /^Client\(127\.0\.0\.1:\d+\)$/);
}));

test("what is too late for a time has the deepest", () => having(() => sound((depth) => (depth > 4 ? "PENDING" : "DONE")), {}, async (client) => {
  const found = [];
  await assert.rejects(async () => { for await (const one of client.deepen(OPENING, 8, { timeout: 300 })) found.push(one); }, (fault) => fault instanceof Late && fault.deepest === found.at(-1) && fault.deepest.depth === 4);
  await assert.rejects(client.analyse(OPENING, 6, { timeout: 30 }), (fault) => fault instanceof Late && fault.deepest === null);
}));

test("what can't be is told before anything is sent", () => having(() => sound(), {}, async (client, heard) => {
  for (const [position, depth] of [[OPENING, 6.5], [OPENING, "6"], [OPENING, 13], [OPENING, NaN], [null, 6], [{}, 6]]) await assert.rejects(client.analyse(position, depth), (fault) => fault instanceof RangeError || fault instanceof TypeError);
  await assert.rejects(client.analyse("x", 6), (fault) => fault instanceof FormatError && fault instanceof ColuwenError && fault.column === 2);
  await assert.rejects(client.analyseAll(OPENING, 0), RangeError);
  await assert.rejects(client.analyseMany([OPENING], 6.5).next(), RangeError);
  assert.deepEqual(heard, []);
  for (const options of [{ port: 0 }, { sessions: 1.5 }, { silence: -1 }, { timeout: "1" }, { token: "a b" }, { segmnets: 4 }]) assert.throws(() => new Client(options), (fault) => fault instanceof RangeError || fault instanceof TypeError);
}));

test("an address", async () => {
  for (const address of ["http://127.0.0.1", "othello:", "othello://h:1?tls=/nowhere", "othello://h?sessions=x", "othello://me@h", "othello://h/x", "othello://h?speed=1", "h:1", ""]) assert.throws(() => connect(address), RangeError);
  const places = [];
  const dial = (place) => { places.push(place); return { send() {}, close() {} }; };
  for (const address of ["othello://[::1]:4712?tls=1", "othello://board.example"]) {
    const client = connect(address, { dial });
    client.ping().catch(() => {});
    await client.close();
  }
  assert.deepEqual(places, [{ host: "::1", port: 4712, secure: true }, { host: "board.example", port: 4711, secure: false }]);
  await having(() => sound(), {}, async (_, heard, port) => {
    const token = path.join(fs.mkdtempSync(path.join(os.tmpdir(), "token")), "token");
    fs.writeFileSync(token, "secret\n");
    process.env.COLUWEN_URL = `othello://127.0.0.1:${port}?tls=0&silence=5&nodes=4096&token=${token}`;
    const client = connect();
    assert.equal((await client.analyse(OPENING, 1)).best, "d3");
    await client.close();
    assert.deepEqual([heard[0], heard.at(-1)], ["HELLO 1024 4096 secret", "BYE"]);
  });
});

test("a full server is told, and asked again", () => {
  const events = [];
  return having(() => { const right = sound(); return (line) => (line.startsWith("HELLO") && !events.length ? "ERR 14\n" : right(line)); }, {}, async (client) => {
    for (const name of ["full", "opened"]) client.addEventListener(name, ({ detail }) => events.push([name, detail.number ?? detail.nodes]));
    assert.equal((await client.analyse(OPENING, 1)).best, "d3");
    assert.deepEqual(events, [["full", 14], ["opened", 8192]]);
  });
});

test("a signal gives up what waits, and its place is free again", () => having(() => sound(() => "PENDING"), { sessions: 1, ahead: 1 }, async (client, heard) => {
  const stop = new AbortController();
  const first = client.analyse(OPENING, 6, { signal: stop.signal });
  while (!heard.includes("GET 1")) await new Promise((resolve) => { setTimeout(resolve, 5); });
  await assert.rejects(client.analyse(OPENING, 4, { signal: AbortSignal.timeout(50) }), { name: "TimeoutError" });
  stop.abort();
  await assert.rejects(first, { name: "AbortError" });
  await assert.rejects(client.analyse(OPENING, 3, { timeout: 1000 }), Late);
  await assert.rejects(client.analyse(OPENING, 2, { signal: AbortSignal.abort() }), { name: "AbortError" });
  assert.deepEqual(heard.filter((line) => /^(ASK|CANCEL)/.test(line)).map((line) => line.split(" ").slice(0, 2).join(" ")), ["ASK 6", "CANCEL 1", "ASK 3", "CANCEL 2"]);
}));

test("answers come before the next question does; what is left is cancelled", () => having(() => sound((depth, text) => (text === OPENING.text ? "DONE" : "PENDING")), { sessions: 2 }, async (client, heard) => {
  const [told_, ends] = [[], { isOver: false }];
  async function* source() {
    try {
      yield OPENING;
      await new Promise((resolve) => { told_.resolve = resolve; });
      yield OPENING.play("d3");
      yield OPENING.text;
    } finally {
      ends.isOver = true;
    }
  }
  const found = client.analyseMany(source(), 3, { order: "known", onProgress: (progress) => told_.push(progress) });
  assert.equal((await found.next()).value.result.best, "d3");
  told_.resolve();
  assert.equal((await found.next()).value.index, 2);
  await found.return();
  assert.deepEqual(told_.slice(), [{ done: 1, faults: 0, total: undefined }, { done: 2, faults: 0, total: undefined }]);
  while (!heard.includes("CANCEL 2") && !heard.includes("CANCEL 1")) await new Promise((resolve) => { setTimeout(resolve, 5); });
}));

test("questions have depths of their own, and a source that says how many there are", () => having(() => sound(), {}, async (client) => {
  const told_ = [];
  const found = client.analyseMany([[OPENING, 1], [OPENING, 2], "x", [OPENING, 99]], undefined, { onProgress: (progress) => told_.push(progress) });
  const outcomes = [];
  for await (const outcome of found) outcomes.push(outcome);
  assert.deepEqual(outcomes.map(({ result, fault }) => result?.depth ?? fault.constructor.name), [1, 2, "RangeError", "RangeError"]);
  assert.deepEqual(told_.at(-1), { done: 4, faults: 2, total: 4 });
  await assert.rejects(client.analyseMany([], 1, { order: "x" }).next(), RangeError);
}));

test("a fault of the source is the caller's, and a signal ends it all", () => having(() => sound(() => "PENDING"), {}, async (client) => {
  const broken = function* broken() { yield OPENING; throw new Error("no more"); };
  await assert.rejects(client.analyseMany(broken(), 3).next(), { message: "no more" });
  await assert.rejects(client.analyseMany([OPENING, OPENING], 3, { signal: AbortSignal.timeout(50) }).next(), (fault) => fault.name === "TimeoutError");
}));

test("a move whose depth can't be had says so of its position", () => having(() => sound((depth) => (depth > 2 ? "SPENT" : "DONE")), {}, async (client) => {
  await assert.rejects(client.analyseAll(OPENING, 8), (fault) => fault instanceof TooDeep && fault.depth === 8 && fault.greatest === 7);
  await assert.rejects(client.analyseAll(OPENING, 4), (fault) => fault instanceof TooDeep && fault.depth === 4 && fault.greatest === 3);
}));

test("all idle sessions of a server that began anew are lost, and a call opens another one", () => {
  const life = { ended: false };
  return having(() => { const [right, isOld] = [sound(), !life.ended]; return (line) => (isOld && life.ended ? null : right(line)); }, { sessions: 6 }, async (client) => {
    await Promise.all([1, 2, 3, 4, 5, 6].map((depth) => client.analyse(OPENING, depth)));
    life.ended = true;
    assert.equal((await client.analyse(OPENING, 2)).best, "d3");
  });
});

test("a program that forgets to close its client ends", () => having(() => sound(), {}, async (_, heard, port) => {
  const program = `import { connect, Position } from ${JSON.stringify(new URL("../src/index.mjs", import.meta.url).href)};
    console.log((await connect("othello://127.0.0.1:${port}?silence=20").analyse(Position.opening(), 2)).best);`;
  const { stdout } = await promisify(execFile)(process.execPath, ["--input-type=module", "-e", program], { timeout: 200_000 }); // (one that doesn't end)
  assert.equal(stdout, "d3\n");
}));
