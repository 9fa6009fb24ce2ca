// How positions come to their values, without input and output: bytes and moments (in milliseconds of a clock that never goes back) go in,
// and what is to be done comes out. `Seat` is one session; `Core` is all that a client asks, by as many sessions as it needs.
import { LONGEST, parse } from "./answers.mjs";
import { Broken, Closed, Late, Refused, Silent, TooDeep, Unreachable } from "./faults.mjs";

export const DEEPEST = 12; // plies that a server looks at most
const MOST_JOBS = 256; // of a session
const USED_UP = [10, 11, 13]; // ASK: this session takes no more jobs, and another one may
const LATER = [14, 19, 31]; // HELLO: it may come again
const RATE = 31; // ASK: it may come again in its session
const PROBED = { INFO: [21], ASK: USED_UP }; // what the lines of a probe may be refused for
const RETRY = 100; // before a server is asked again
const GRACE = 200; // for so long the answer to a line may still come where a job's time is over
const LOSSES = 4; // a question isn't asked again once so many sessions were lost with it
// Where many wait, and jobs are quick, a session says the lines of many questions at once (`Seat.flight`).
const [MOST_FLYING, LEAST_FLYING] = [32, 8]; // how many, and how many have to wait for each session
const FLIGHT = 2000; // milliseconds that they may take, by what the last jobs of their depth took
const [SLOW, FORGETS] = [1000, 0.7]; // of a depth whose jobs weren't quick; a quick one counts for less by and by
// What is reserved where nobody says it: by the first session, and at most; between them RESERVE raises.
const LEVELS = [{ segments: 256, nodes: 8192 }, { segments: 1024, nodes: 65536 }];
const RAISED = [{ segments: 512, nodes: 16384 }, { segments: 1024, nodes: 32768 }, LEVELS[1]];
// Mid-game positions, and how many nodes they take at most at a depth that is no more than a ply over the server's grain.
const PROBES = ["-O-------O-------OXOO---XOXXOO--OOXXOOO---OXO------OO----------- X", "-----X-------XX---OOOXO---OXX----OOOOXO---OO--X--OXO------X----- X"];
const [FEW_NODES, LEAST_PROBE, LAST_PROBE] = [50, 2, 8];

/** What a session has to have left so that a search, its only one then, is never spent, whatever the load; null where no session can have as much. */
export function enough({ cells }, depth, grain) {
  const [empty, black, white] = ["-", "X", "O"].map((cell) => cells.split(cell).length - 1);
  let [segments, nodes] = [1, 1];
  for (let ply = Math.max(1, depth - grain) - 1; ply >= 0; ply -= 1) {
    const most = Math.min(Math.max(empty - ply, 0), ply ? 56 : 8 * Math.max(black, white), 56);
    [segments, nodes] = [1 + Math.ceil((12 + most) / 16) + most * segments, 2 + Math.max(2 * most - 1, 0) * nodes];
  }
  return segments <= 4096 && nodes <= 65536 ? { segments, nodes } : null;
}

/**
 * Finds out how deep a server looks: by INFO where it knows that, else by how many nodes two positions take from depth to depth. Yields lines and takes
 * their answers, null for one that is refused.
 */
function* probe() {
  const site = yield "INFO";
  if (site) return [site.numbers[0], site.more.split(" ").at(-1) || null];
  let [left, grain] = [(yield "QUOTA").numbers[1], 6];
  for (const place of PROBES) {
    for (let depth = LEAST_PROBE; depth <= LAST_PROBE; depth += 1) {
      let job = yield `ASK ${depth} ${place}`;
      while (job?.state === "JOB" || job?.state === "PENDING") job = yield `GET ${job.numbers[0]}`;
      const before = left;
      left = (yield "QUOTA").numbers[1];
      if (job?.state === "DONE" && before - left <= FEW_NODES) continue;
      grain = Math.min(grain, depth - 2);
      break;
    }
  }
  return [grain, null];
}

/** A session, from its opening to its end. */
class Seat {
  lines = []; // what isn't answered, in order: { line, word, question, isAhead }
  #rest = ""; // what came of an answer
  jobs = 0; // that were asked
  running = new Set(); // the questions that it has, the oldest first
  flight = new Set(); // of these, those whose lines are said ahead
  begun = []; // of these, those whose ASK was said and nothing more yet
  isReady = false; // it has been welcomed
  isRetired = false; // it takes no more
  isCareful = false; // what was said ahead was refused: the next question is asked alone
  freeAt = 0; // before it asks nothing
  constructor(level, reserved, silence, now, probe) {
    Object.assign(this, { level, reserved, silence, begunAt: now, deadline: now + silence, probe, line: probe?.next().value });
  }
  /** What is to be answered next. */
  get asked() { return this.lines[0] ?? null; }
  get isIdle() { return this.isReady && !this.asked && !this.running.size; }
  /** When it is to be looked at. */
  get times() {
    if (this.flight.size) return [this.deadline, this.until];
    return [this.deadline, this.freeAt, ...[...this.running].flatMap(({ until, limit, pollAt }) => [until, limit, pollAt])];
  }
  /** When the first of a flight may be late. */
  until = Infinity;

  /** The answers that are whole, each with its line: { asked, answer, refusal }. Throws Broken where what came is no answer. */
  * receive(bytes) {
    const texts = (this.#rest + bytes).split("\n");
    this.#rest = texts.pop();
    for (const [at, text] of texts.entries()) {
      if (this.lines.length < 2) this.#checkEnd([...texts.slice(at + this.lines.length), this.#rest].join(" "), !this.asked);
      let [answer, refusal] = [null, null];
      try {
        answer = parse(this.asked.line, text, this.jobs);
      } catch (fault) {
        if (!(fault instanceof Refused)) throw fault;
        refusal = fault;
      }
      if (answer?.state === "JOB") this.jobs += 1;
      yield { asked: this.lines.shift(), answer, refusal };
    }
    if (!this.asked) this.#checkEnd(this.#rest);
    if (this.#rest.length >= LONGEST) throw new Broken(`an answer has more than ${LONGEST} bytes`);
  }

  #checkEnd(unasked, isNone = false) {
    if (unasked || isNone) throw new Broken(`the server said ${JSON.stringify(unasked.slice(0, 60))}, which wasn't asked`);
  }
}

/**
 * Questions and their answers. What goes in: `ask`, `drop`, `end`; of a session `opened`, `received`, `lost`; and `passed`, once `next` has
 * come. What comes out by `take`: ["open", seat], ["send", seat, bytes], ["close", seat], ["tell", name, detail], ["settled", question].
 *
 * A question has a `kind`: of a `job` its `position` (a text), `depth` and `timeout` (from when it is asked); a `ping` and an `info` have no
 * more. Once it is settled it has a `fault`, or `found`: { value, move, entries }, milliseconds, or { grain, sure, mostly, version }.
 */
export class Core {
  next = Infinity; // when `passed` is to be called, if nothing comes before
  #queue = new Set(); // questions that no session has
  #takes = new Map(); // of a depth the milliseconds that its jobs took
  #seats = new Set(); #out = []; #isEnded = false;
  #needs = new Map(); // of a depth the level that its last job needed
  #deep = []; #info = null; // questions that wait for what is known of the server's grain, and that
  #heard = null; #trouble = null; #full = null; // when the server last said anything; since when it can't be reached, or is full
  #silences = 0; #probeLosses = 0; #sequence = 0; #wasTold = false; #retryAt = 0;
  #most; // how many sessions there may be now

  constructor({ segments, nodes, token = "", sessions = 4, ahead = 1, patience = 30_000, silence = 1500, outage = 120_000 } = {}) {
    Object.assign(this, { token, sessions, ahead, patience, silence, outage });
    this.isFree = segments === undefined && nodes === undefined;
    this.levels = this.isFree ? LEVELS : [{ segments: segments ?? LEVELS[1].segments, nodes: nodes ?? LEVELS[1].nodes }];
    this.#most = sessions;
  }

  take() { return this.#out.splice(0); }
  get isEmpty() { return !this.#seats.size; }

  ask(question, now) {
    Object.assign(question, { sequence: (this.#sequence += 1), level: 0, isAlone: false, hasTrouble: false, losses: 0, isSettled: false, pollAt: Infinity, refusedAt: null });
    if (this.#isEnded) this.#settle(question, { fault: closed() });
    else if (question.kind === "info") this.#tooDeep(question);
    else this.#queue.add(question);
    this.#go(now);
  }

  /** Nobody wants a question's answer any more: it ends with this fault, and its job is cancelled once a line can be sent. */
  drop(question, fault, now) {
    this.#settle(question, { fault });
    this.#go(now);
  }

  /** What isn't settled is so by Closed, and nothing more is asked. */
  end(now) {
    this.#isEnded = true;
    this.#fail(closed);
    for (const seat of this.#seats) {
      for (const one of seat.running) this.#settle(one, { fault: closed() });
      if (seat.isIdle) this.#send(seat, "BYE", now);
      else if (seat.asked?.word !== "BYE") this.#close(seat);
    }
    this.#go(now);
  }

  opened(seat, now) {
    if (this.#seats.has(seat)) this.#send(seat, `HELLO ${seat.reserved.segments} ${seat.reserved.nodes}`, now, null, this.token);
    this.#go(now);
  }

  received(seat, bytes, now) {
    if (!this.#seats.has(seat)) return;
    try {
      for (const { asked, answer, refusal } of seat.receive(bytes)) {
        [this.#heard, this.#trouble, seat.deadline] = [now, null, seat.asked ? now + seat.silence : Infinity];
        if (asked.isAhead) this.#landed(seat, asked, answer, refusal, now);
        else if (seat.probe && asked.word !== "HELLO" && asked.word !== "BYE") this.#probed(seat, asked.word, answer, refusal, now);
        else this[`_${asked.word}`](seat, asked.question, answer, refusal, now);
        if (!this.#seats.has(seat)) break;
      }
    } catch (fault) {
      if (!(fault instanceof Broken)) throw fault;
      return void this.lost(seat, fault, now);
    }
    this.#go(now);
  }

  /** Whether so many answers come in a session that it needn't be read at once. */
  hasMuch(seat) { return seat.flight.size > 0 && seat.lines.length > LEAST_FLYING; }

  /** A session is there no more, or can't be had: `fault` says why; `isFinal` where trying again can't mend it. */
  lost(seat, fault, now, isFinal = false) {
    if (!this.#seats.has(seat)) return;
    this.#close(seat);
    if (seat.asked?.word === "BYE") return void this.#go(now);
    const isSilent = fault instanceof Silent, isGivenUp = isSilent && !this.#isOutage(now);
    const again = [...seat.running].filter((one) => !one.isSettled);
    if (seat.isReady && (seat.asked || again.length)) this.#tell(isSilent ? "silent" : "lost", fault);
    if (seat.isReady && isSilent) this.#silences += 1;
    for (const one of this.#seats) if (one.isIdle) this.#close(one); // they may be lost too
    for (const one of again) {
      one.hasTrouble = true;
      one.losses += isSilent ? 0 : 1;
      if (one.losses >= LOSSES || isGivenUp || one.kind === "ping") this.#settle(one, { fault: unreachable(fault) });
    }
    this.#requeue(again);
    if (!seat.isReady) this.#notReached(seat, fault, now, isFinal);
    else if (seat.probe && ((this.#probeLosses += 1) >= LOSSES || isGivenUp)) this.#fail(() => unreachable(fault), this.#deep);
    this.#go(now);
  }

  /** Time goes on. */
  passed(now) {
    for (const seat of this.#seats) {
      if (seat.flight.size && (now >= seat.until || (now >= seat.deadline && seat.asked.word === "WAIT"))) {
        seat.until = Math.min(...[...seat.flight].map(({ until }) => until));
        if (now >= Math.min(seat.until, seat.deadline)) this.#dive(seat, now);
        continue;
      }
      for (const one of seat.running) if (now >= one.limit) this.#settle(one, { fault: late(one) });
      if (now >= seat.deadline) this.lost(seat, new Silent(`no ${seat.asked ? `answer to ${seat.asked.word}` : "connection"} in ${seat.silence} ms`), now);
    }
    this.#go(now);
  }

  #tell(name, detail) { this.#out.push(["tell", name, detail]); }

  #settle(question, outcome) {
    if (question.isSettled) return;
    Object.assign(question, outcome, { isSettled: true });
    this.#queue.delete(question);
    if (this.#deep.length) this.#deep = this.#deep.filter((one) => one !== question);
    this.#out.push(["settled", question]);
  }

  /** They are asked again, each in the place that it had. */
  #requeue(questions) {
    const again = questions.filter((one) => !one.isSettled);
    if (again.length) this.#queue = new Set([...again, ...this.#queue].sort((one, other) => one.sequence - other.sequence));
  }

  /** What waits ends with a fault of its own each. */
  #fail(faultOf, questions = [...this.#queue, ...this.#deep]) {
    this.#probeLosses = 0;
    for (const one of questions) this.#settle(one, { fault: faultOf() });
  }

  #close(seat) {
    this.#seats.delete(seat);
    this.#out.push(["close", seat]);
  }

  /** Whether the server may be waited for: it was heard, and not too long ago. */
  #isOutage(now) { return this.#heard !== null && now - this.#heard < this.outage; }

  /** Nobody listens, or says a word before the welcome. It is tried again for a while; where other sessions go on, they do the work. */
  #notReached(seat, fault, now, isFinal) {
    if (this.#trouble === null && this.#heard !== null) this.#tell(fault instanceof Silent ? "silent" : "lost", fault);
    this.#trouble ??= seat.begunAt;
    this.#retryAt = now + RETRY;
    if (!isFinal && (now - this.#trouble < 0.8 * this.silence || this.#isOutage(now))) return;
    if ([...this.#seats].some(({ isReady }) => isReady)) this.#most = this.#seats.size;
    else this.#fail(() => unreachable(fault));
  }

  /** Sends a line. A token is its last word, and stands in no fault. */
  #send(seat, line, now, question = null, token = "") {
    seat.lines.push({ line, word: line.split(" ")[0], question, isAhead: false });
    seat.deadline = now + seat.silence;
    this.#out.push(["send", seat, `${line}${token && ` ${token}`}\n`]);
  }

  // What each line's answer brings.

  _HELLO(seat, _, answer, refusal, now) {
    if (answer) {
      [seat.isReady, this.#full] = [true, null];
      return this.#tell("opened", seat.reserved);
    }
    this.#close(seat);
    this.#full ??= now;
    this.#retryAt = now + RETRY;
    const isLater = LATER.includes(refusal.number);
    if (isLater && [...this.#seats].some(({ isReady }) => isReady)) return void (this.#most = this.#seats.size);
    if (!isLater || now - this.#full > this.patience) {
      this.#full = null;
      return this.#fail(() => new Refused(refusal.number));
    }
    if (!this.#wasTold && now - this.#full > 1000) [this.#wasTold] = [true, this.#tell("full", refusal)];
  }

  _ASK(seat, question, answer, refusal, now) {
    if (answer) return void Object.assign(question, { job: answer.numbers[0], pollAt: now });
    seat.running.delete(question);
    const more = this.isFree && refusal.number !== 13 ? RAISED.find(({ nodes }) => nodes > seat.reserved.nodes) : null;
    question.refusedAt ??= now;
    if (refusal.number === RATE && now - question.refusedAt <= this.patience) seat.freeAt = now + RETRY;
    else if (!USED_UP.includes(refusal.number) || !seat.jobs) return this.#settle(question, { fault: refusal });
    else if (more) this.#send(seat, `RESERVE ${Math.max(more.segments, seat.reserved.segments)} ${more.nodes}`, now);
    else seat.isRetired = true;
    this.#requeue([question]);
  }

  _RESERVE(seat, _, answer) {
    if (answer) seat.reserved = { segments: answer.numbers[0], nodes: answer.numbers[1] };
    else seat.isRetired = true;
  }

  _GET(seat, question, answer, refusal, now) {
    if (refusal) return this.lost(seat, new Broken(refusal.message), now);
    if (answer.state === "PENDING") return void (question.pollAt = now + Math.min(Math.max((now - question.askedAt) / 4, 0.2), 20));
    if (answer.state === "DONE" && !question.isSettled) {
      [question.found, question.doneAt] = [answer, now];
      return this.#send(seat, `TABLE ${question.job}`, now, question);
    }
    seat.running.delete(question);
    if (answer.state === "SPENT") this.#spent(seat, question);
    else this.#settle(question, { fault: late(question) });
  }

  _TABLE(seat, question, answer, refusal, now) {
    if (answer?.state !== "TABLE") return this.lost(seat, new Broken(`job ${question.job} was DONE, and has no table`), now);
    seat.running.delete(question);
    if (question.isAlone) this.#needs.set(question.depth, question.level);
    this.#took(question.depth, question.doneAt - question.askedAt);
    this.#silences = 0;
    this.#settle(question, { found: { ...question.found, entries: answer.entries } });
  }

  _CANCEL(seat, question, answer) {
    if (question.isSettled || answer) seat.running.delete(question);
    if (answer) this.#settle(question, { fault: late(question) });
    [question.until, question.pollAt] = [Infinity, 0]; // where it had ended, its result counts
  }

  _QUOTA(seat, question, answer, refusal, now) {
    seat.running.delete(question);
    this.#settle(question, answer ? { found: now - question.askedAt } : { fault: refusal });
  }

  _BYE(seat) { this.#close(seat); }

  /** A job that had too little: it is asked again with more, as the first of a session; where it was that, its depth can't be had. */
  #spent(seat, question) {
    const top = this.levels.length - 1;
    seat.isRetired = true;
    if (question.isSettled) return;
    if (seat.jobs > 1 || seat.level < top) {
      this.#requeue([Object.assign(question, { isAlone: true, level: Math.min(Math.max(question.level, seat.level) + 1, top) })]);
    } else {
      this.#needs.set(question.depth, top);
      this.#tooDeep(question);
    }
  }

  /** What asks for the server's grain, or can't be answered at it. */
  #tooDeep(question) {
    const isInfo = question.kind === "info";
    if (!this.#info && (isInfo || this.isFree)) return void this.#deep.push(question);
    const greatest = this.isFree ? Math.min(this.#info.sure, question.depth - 1) : 0;
    this.#settle(question, isInfo ? { found: this.#info } : { fault: new TooDeep(question.depth, greatest) });
  }

  /** A probe goes on, or ends. */
  #probed(seat, word, answer, refusal, now) {
    seat.line = "BYE";
    if (refusal && !PROBED[word]?.includes(refusal.number)) return this.#fail(() => refusal, this.#deep);
    if (answer?.state === "PENDING") seat.freeAt = now + 1;
    const { done, value } = seat.probe.next(answer);
    if (!done) return void (seat.line = value);
    const [grain, version] = value;
    this.#info = { grain, sure: Math.min(grain + 4, DEEPEST), mostly: Math.min(grain + 5, DEEPEST), version };
    for (const one of this.#deep.splice(0)) this.#tooDeep(one);
  }

  // What is done next.

  /** Sends what can be sent, opens and ends sessions, and says when time matters next. */
  #go(now) {
    for (const seat of [...this.#seats]) this.#turn(seat, now);
    if (!this.#isEnded) this.#staff(now);
    const times = [this.#retryAt, ...[...this.#seats].flatMap((seat) => seat.times)];
    this.next = Math.min(Infinity, ...times.filter((at) => at > now));
  }

  /** The next line of a session that waits for no answer. */
  #turn(seat, now) {
    if (!seat.isReady) return;
    if (seat.flight.size) {
      if (seat.lines.length > 1.5 * MOST_FLYING) return;
      const share = Math.ceil(this.#queue.size / [...this.#seats].filter(({ isReady }) => isReady).length);
      this.#fly(seat, this.#forFlight(seat, share, seat.lines.length > LEAST_FLYING ? LEAST_FLYING : 1), now);
      return;
    }
    if (seat.asked) return;
    if (seat.probe) {
      if (now >= seat.freeAt) this.#send(seat, seat.line, now);
      return;
    }
    const gone = [...seat.running].find((one) => one.isSettled || now >= one.until);
    if (gone) return this.#send(seat, `CANCEL ${gone.job}`, now, gone);
    let [next, oldest] = [this.#nextFor(seat, now), ...seat.running];
    const ahead = next ? this.#forFlight(seat, Math.floor(this.#queue.size / this.sessions), LEAST_FLYING) : [];
    if (ahead.length >= LEAST_FLYING && !oldest) return this.#fly(seat, ahead, now);
    if (ahead.length >= LEAST_FLYING) next = null; // once nothing is under way any more
    if (next) {
      this.#queue.delete(next);
      seat.running.add(next);
      seat.isCareful = false;
      const until = now + (next.timeout || Infinity);
      Object.assign(next, { askedAt: now, until, limit: until + GRACE });
      this.#send(seat, next.kind === "ping" ? "QUOTA" : `ASK ${next.depth} ${next.position}`, now, next);
    } else if (oldest && now >= oldest.pollAt) {
      this.#send(seat, `GET ${oldest.job}`, now, oldest);
    } else if (!oldest && seat.isRetired) {
      this.#send(seat, "BYE", now);
    }
  }

  #levelOf(question) { return Math.max(question.level, this.#needs.get(question.depth) ?? 0); }
  #hasEnough(seat, question) { return seat.reserved.nodes >= this.levels[this.#levelOf(question)].nodes; }

  /** What a session may be asked more. */
  #nextFor(seat, now) {
    seat.isRetired ||= seat.jobs >= MOST_JOBS;
    if (seat.isRetired || now < seat.freeAt || seat.running.size >= this.ahead || [...seat.running].some(({ isAlone }) => isAlone)) return null;
    const others = [...this.#seats].filter((one) => one !== seat && !one.probe && (!one.isReady || one.isIdle)).length; // they have nothing yet
    const places = now >= this.#retryAt ? this.#most - this.#seats.size : 0;
    if (seat.running.size && this.#queue.size <= others + places) return null;
    for (const one of this.#queue) if ((!one.isAlone || (!seat.jobs && !seat.running.size)) && this.#hasEnough(seat, one)) return one;
    return null;
  }

  // Lines that are said ahead: of each question ASK, WAIT and TABLE, before any of them is answered, with no more than `ahead` jobs alive. What can't be
  // had so is asked again alone.

  /** The first of those that wait that a session may ask ahead: no more than its share, as long as none has had trouble. */
  #forFlight(seat, share, least) {
    const takes = ({ depth }) => this.#takes.get(depth) ?? FLIGHT, found = [];
    const unasked = [...seat.flight].filter(({ job }) => !job).length;
    const most = Math.min(share, MOST_FLYING - seat.running.size, MOST_JOBS - seat.jobs - unasked);
    if (most < least || seat.isCareful || seat.isRetired) return found;
    let left = FLIGHT;
    for (const one of seat.running) left -= takes(one);
    for (const one of this.#queue) {
      left -= takes(one);
      if (found.length === most || left < 0 || one.kind !== "job" || one.isAlone || one.hasTrouble || one.timeout < SLOW || !this.#hasEnough(seat, one)) break;
      found.push(one);
    }
    return found;
  }

  /** Says their lines; without any, those that are left of the ones before. */
  #fly(seat, questions, now) {
    const said = [];
    const say = (question, line) => said.push({ line, word: line.slice(0, line.indexOf(" ")), question, isAhead: true });
    const endOne = () => {
      const question = seat.begun.shift();
      say(question, `WAIT ${question.number}`);
      say(question, `TABLE ${question.number}`);
    };
    let job = seat.jobs + seat.lines.filter(({ word }) => word === "ASK").length;
    for (const question of questions) {
      this.#queue.delete(question);
      Object.assign(question, { job: 0, number: (job += 1), done: null, until: Infinity, limit: Infinity, pollAt: Infinity, askedAt: now });
      seat.running.add(question);
      seat.flight.add(question);
      say(question, `ASK ${question.depth} ${question.position}`);
      seat.begun.push(question);
      if (seat.begun.length >= this.ahead) endOne();
    }
    while (seat.begun.length && (!this.#queue.size || (!questions.length && seat.lines.length <= LEAST_FLYING))) endOne();
    if (!said.length) return;
    seat.lines.push(...said);
    seat.deadline = now + seat.silence;
    this.#out.push(["send", seat, said.map(({ line }) => `${line}\n`).join("")]);
  }

  /** What the answer to a line brings that was said ahead. Where the job has another number than its lines say, as an ASK before it was refused, they mean another
   * job: it is asked again. */
  #landed(seat, { word, question }, answer, refusal, now) {
    if (refusal) {
      seat.isCareful = true;
      if (question.job === question.number) throw new Broken(refusal.message);
    } else if (word === "ASK") {
      Object.assign(question, { job: seat.jobs, askedAt: now, until: now + (question.timeout || Infinity) });
      seat.until = Math.min(seat.until, question.until);
    } else if (question.job === question.number && word === "WAIT") {
      Object.assign(question, { done: answer, until: Infinity });
      this.#took(question.depth, (now - question.askedAt) / this.ahead);
    }
    if (word !== "TABLE") return;
    for (const each of [seat.running, seat.flight]) each.delete(question);
    if (!question.done) return this.#requeue([question]);
    if (question.done.state === "SPENT") return this.#spent(seat, question);
    if (question.done.state !== "DONE" || answer?.state !== "TABLE") throw new Broken(`job ${question.job} has no value and no table`);
    this.#silences = 0;
    this.#settle(question, { found: { ...question.done, entries: answer.entries } });
  }

  #took(depth, milliseconds) { this.#takes.set(depth, Math.max(milliseconds, (this.#takes.get(depth) ?? 0) * FORGETS)); }

  /** A job takes long, and others are behind it: these are asked again one by one, in another session. */
  #dive(seat, now) {
    const [first] = seat.flight;
    this.#takes.set(first.depth, SLOW);
    this.#close(seat);
    for (const one of seat.flight) if (now >= one.until) this.#settle(one, { fault: late(one) });
    this.#requeue([...seat.flight]);
  }

  /** Opens the sessions that are wanted; where every place is taken, and no session can take the first that waits, one ends. */
  #staff(now) {
    const seats = [...this.#seats];
    if (!this.#queue.size && seats.every(({ asked, running }) => !asked && !running.size)) this.#most = this.sessions;
    if (now < this.#retryAt) return;
    const opening = seats.filter((one) => !one.isReady && !one.probe).length;
    if (this.#deep.length && !seats.some(({ probe }) => probe) && this.#seats.size < this.#most) this.#open(0, now, probe());
    let passed = 0;
    for (const one of this.#queue) {
      if (this.#seats.size >= this.#most) break;
      if ((passed += 1) > opening) this.#open(this.#levelOf(one), now);
    }
    const [first] = this.#queue;
    if (this.#seats.size < this.#most || seats.length < this.#seats.size || seats.some((one) => !one.isReady || one.isRetired || one.probe)) return;
    if (!this.#deep.length && !(first && seats.every((one) => (first.isAlone && one.jobs) || !this.#hasEnough(one, first)))) return;
    const least = seats.reduce((found, one) => (one.running.size < found.running.size ? one : found));
    least.isRetired = true;
    this.#turn(least, now);
  }

  #open(level, now, probing = null) {
    const silence = Math.min(this.silence * 2 ** this.#silences, Math.max(this.outage, this.silence));
    const seat = new Seat(level, { ...(probing ? LEVELS[0] : this.levels[level]) }, silence, now, probing);
    this.#seats.add(seat);
    this.#out.push(["open", seat]);
  }
}

const closed = () => new Closed("this client is closed");
const unreachable = (fault) => new Unreachable(fault.message, { cause: fault });
const late = ({ depth, timeout }) => new Late(`a job of depth ${depth} was cancelled after ${timeout} ms`);
