// The core in a time of its own: servers that answer, pend, spend, refuse, fall silent and cut by chance. Whatever they do, each question is
// settled, no more sessions are open than are allowed, a result is that of its own position, and nothing is sent after the end.
import assert from "node:assert/strict";
import test from "node:test";
import { Core } from "../src/core.mjs";
import { Broken } from "../src/faults.mjs";

/** Numbers by chance that are the same for the same seed. */
function chances(seed) {
  let state = seed;
  return (most) => {
    state = (Math.imul(state, 1664525) + 1013904223) >>> 0;
    return Math.floor((state / 2 ** 32) * most);
  };
}

/** A server in the core's time: `kinds` says how often each mischief comes, of 1,000 lines. */
class Server {
  connections = new Map(); // of a seat its jobs and nodes
  constructor(chance, kinds) { Object.assign(this, { chance, kinds }); }

  /** What a line gets: its bytes, null for silence, or "cut". */
  answer(seat, line) {
    const [word, ...rest] = line.trim().split(" ");
    const session = this.connections.get(seat);
    const falls = (kind) => this.chance(1000) < (this.kinds[kind] ?? 0);
    if (falls("cut")) return "cut";
    if (falls("silence")) return null;
    if (falls("nonsense")) return "what?\n";
    if (word === "HELLO" && falls("full")) return "ERR 14\n";
    if (word === "HELLO") return Object.assign(session, { nodes: Number(rest[1]), jobs: [] }), `WELCOME ${rest[0]} ${rest[1]}\n`;
    if (word === "RESERVE") return falls("full") ? "ERR 14\n" : `RESERVED ${rest[0]} ${rest[1]}\n`;
    if (word === "ASK" && session.jobs.length && falls("usedUp")) return `ERR ${[10, 11, 13][this.chance(3)]}\n`;
    if (word === "ASK" && falls("rate")) return "ERR 31\n";
    if (word === "ASK") return `JOB ${session.jobs.push({ text: rest.slice(1).join(" "), depth: Number(rest[0]), looks: this.chance(4) })}\n`;
    const job = session.jobs[rest[0] - 1];
    if (["GET", "WAIT", "TABLE"].includes(word) && !job) return "ERR 17\n";
    if (word === "WAIT") Object.assign(job, { looks: 0, ends: job.ends ?? (job.depth > 9 || (session.nodes < 65536 && falls("spent")) ? "SPENT" : "DONE") });
    if (["WAIT", "TABLE"].includes(word) && job.ends === "SPENT") return `SPENT ${rest[0]}\n`;
    if (word === "WAIT") return `DONE ${rest[0]} ${job.text.length} d3\n`;
    if (word === "GET" && job.isCancelled) return `CANCELLED ${rest[0]}\n`;
    if (word === "GET" && job.looks > 0) return (job.looks -= 1), `PENDING ${rest[0]}\n`;
    if (word === "GET" && (job.depth > 9 || (session.nodes < 65536 && falls("spent")))) return `SPENT ${rest[0]}\n`;
    if (word === "GET") return `DONE ${rest[0]} ${job.text.length} d3\n`;
    if (word === "TABLE") return `TABLE ${rest[0]} d3=${job.text.length}\n`;
    if (word === "CANCEL" && job.looks > 0) return (job.isCancelled = true), `CANCELLED ${rest[0]}\n`;
    return { CANCEL: "ERR 17\n", QUOTA: "QUOTA 256 8000 9\n", INFO: "INFO 5\n", BYE: "BYE\n" }[word];
  }
}

/** Plays one case; gives the questions. */
function play(seed, kinds) {
  const chance = chances(seed);
  const options = { sessions: 1 + chance(4), ahead: 1 + chance(3), silence: 1000, patience: 60_000, outage: 600_000 };
  const [core, server, events, questions] = [new Core(options), new Server(chance, kinds), [], []];
  let [now, isEnded, waits] = [0, false, 0];
  const later = (after, call) => events.push([now + after, call]);
  const act = () => {
    for (const [what, seat, bytes] of core.take()) {
      if (what === "open") {
        server.connections.set(seat, {});
        assert.ok(server.connections.size <= options.sessions, "too many sessions");
        later(1 + chance(5), () => core.opened(seat, now));
      } else if (what === "close") {
        server.connections.delete(seat);
      } else if (what === "send") {
        assert.ok(server.connections.has(seat) && (!isEnded || bytes === "BYE\n"), `${bytes} was sent after the end`);
        let at = Math.max(seat.answeredAt ?? 0, now); // the server answers line after line, whenever they came
        for (const line of bytes.trim().split("\n")) {
          waits += line.startsWith("WAIT") ? 1 : 0;
          const answer = seat.isStuck ? null : server.answer(seat, line);
          at += chance(20) ? 1 + chance(3) : 300;
          if (answer === "cut") later(at - now, () => core.lost(seat, new Broken("cut"), now));
          else if (answer) later(at - now, () => core.received(seat, answer, now));
          seat.isStuck ||= answer === null || answer === "cut";
        }
        seat.answeredAt = at;
      }
    }
  };
  const step = (call) => { call(); act(); };
  const isBurst = seed % 2 === 1; // all are asked at once, at a depth
  const count = 20 + chance(60);
  for (let each = 0; each < count; each += 1) {
    const text = "x".repeat(1 + chance(60));
    later(chance(isBurst ? 5 : 2000), () => {
      const question = { kind: chance(30) ? "job" : "ping", position: text, depth: isBurst && chance(20) ? 3 : chance(14), ...(chance(4) ? {} : { timeout: 1 + chance(3000) }) };
      questions.push(question);
      core.ask(question, now);
      if (!chance(10)) later(chance(500), () => core.drop(question, new Error("given up"), now));
    });
  }
  for (let turns = 0; events.length || core.next < Infinity; turns += 1) {
    assert.ok(turns < 200_000, "it goes on for ever");
    events.sort(([one], [other]) => one - other);
    const next = Math.min(core.next, events[0]?.[0] ?? Infinity);
    if (questions.length === count && questions.every(({ isSettled }) => isSettled) && !isEnded && !(events.length)) {
      isEnded = true;
      step(() => core.end(now));
      continue;
    }
    now = Math.max(now, next);
    if (events.length && events[0][0] <= now) step(events.shift()[1]);
    else step(() => core.passed(now));
  }
  assert.ok(questions.length === count && questions.every(({ isSettled }) => isSettled), "a question is left");
  for (const { kind, found, fault, position } of questions) if (kind === "job" && !fault) assert.equal(found.value, position.length);
  return { questions, waits };
}

const CASES = { sound: {}, spent: { spent: 200 }, usedUp: { usedUp: 100 }, full: { full: 300 }, rate: { rate: 100 }, cut: { cut: 5 }, silence: { silence: 3 }, nonsense: { nonsense: 3 },
  all: { spent: 100, usedUp: 50, full: 100, rate: 50, cut: 3, silence: 2, nonsense: 2 } };

for (const [name, kinds] of Object.entries(CASES)) {
  test(`by chance: ${name}`, () => {
    const faults = new Map();
    let waits = 0;
    for (let seed = 1; seed <= 40; seed += 1) {
      let questions;
      try {
        const played = play(seed * 7919, kinds);
        questions = played.questions;
        waits += played.waits;
      } catch (fault) {
        fault.message = `seed ${seed}: ${fault.message}`;
        throw fault;
      }
      for (const { fault } of questions) if (fault) faults.set(fault.constructor.name, (faults.get(fault.constructor.name) ?? 0) + 1);
    }
    const wanted = new Set(["TooDeep", "Late", "Error", ...(["cut", "nonsense", "all", "silence"].includes(name) ? ["Unreachable"] : [])]);
    assert.deepEqual([...faults.keys()].filter((each) => !wanted.has(each)), []);
    assert.ok(faults.get("TooDeep") > 0 && waits > 100, `${waits} questions were asked ahead`);
  });
}
