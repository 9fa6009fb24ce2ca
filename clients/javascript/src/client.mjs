// Values of positions from a server, by as many sessions as they need.
import { Analyst, checkOptions, checked, resultOf } from "./analyst.mjs";
import { Core } from "./core.mjs";
import { Broken } from "./faults.mjs";
import { dial, textIn } from "./socket.mjs";

export const HOST = "127.0.0.1";
export const PORT = 4711;
const REST = 2; // milliseconds in which answers that still come aren't read
const LIMITS = { sessions: [1, 64], ahead: [1, 256], segments: [1, 4096], nodes: [1, 65536], port: [1, 65535], silence: [1, 1e9],
  patience: [0, 1e9], outage: [0, 1e9], timeout: [1, 1e9], host: null, secure: null, token: null, dial: null };

/** Something that is told: `opened`, `full`, `silent` or `lost`. */
export class ClientEvent extends Event {
  constructor(name, detail) {
    super(name);
    this.detail = detail;
  }
}

/**
 * Answers any number of positions. Options: `host`, `port`, `secure` (TLS: true, or what `tls.connect` takes), `token`; `sessions`, how many
 * are used at once (4), and `ahead`, how many questions one has at once (1); in milliseconds `silence`, after which a server that says nothing
 * is given up (1,500), `outage`, for how long a server that was heard before is asked again then (120,000), `patience`, for how long one that
 * is full (30,000), and `timeout`, how long a job may take; `segments` and `nodes`, where the client isn't to choose what it reserves.
 *
 * Events: `opened` ({ segments, nodes }), `full`, `silent` and `lost` (a ColuwenError): where there is something to wait for.
 */
export class Client extends Analyst {
  #core; #links = new Map(); #open; #timeout; #sessions; #address; #timer; #waiting = 0; #closed = []; // calls that wait, and those of `close`
  #timerAt = Infinity; // when the core is to be told that time has passed
  #resting = []; // connections that aren't read for a moment

  constructor(options = {}) {
    super();
    checkOptions(options, LIMITS);
    if (options.token && !/^[!-~]{1,64}$/.test(options.token)) throw new RangeError("a token has 1 to 64 letters, digits and signs");
    const { host, port, secure, dial: dialled, timeout, ...rest } = { host: HOST, port: PORT, secure: false, dial, ...options };
    this.#open = (heard) => dialled({ host, port, secure }, heard);
    this.#address = `${host}:${port}`;
    [this.#timeout, this.#sessions] = [timeout, rest.sessions ?? 4];
    this.#core = new Core(rest);
  }

  /** The server's `host:port`. */
  get address() { return this.#address; }
  toString() { return `Client(${this.#address})`; }

  get window() { return 64 * this.#sessions; }

  /** The score of a position so many plies deep (0 to 12), its best move and its table. TooDeep where the server's grain doesn't let it
   * through. After `timeout` milliseconds its job is cancelled and Late thrown; where `signal` is aborted the same, and its reason. */
  async analyse(position, depth, { timeout = this.#timeout, signal } = {}) {
    const [place, begun] = [checked(position, depth), performance.now()];
    const found = await this.#answer({ kind: "job", position: place.text, depth, timeout }, signal);
    return resultOf(place, depth, found, performance.now() - begun);
  }

  /** How deep the server looks at mid-game positions, found out once: `sure` plies at each, `mostly` at most of them; and a site's version. */
  async info() { return this.#answer({ kind: "info" }); }

  /** How many milliseconds the server takes to say a word. */
  async ping() { return this.#answer({ kind: "ping" }); }

  /** Ends the sessions. Calls that wait, and later ones, are Closed. */
  close() {
    return new Promise((resolve) => {
      this.#closed.push(resolve);
      this.#act((now) => this.#core.end(now));
    });
  }

  #answer(question, signal) {
    return new Promise((resolve, reject) => {
      signal?.throwIfAborted();
      const leave = () => this.#act((now) => this.#core.drop(question, signal.reason, now));
      signal?.addEventListener("abort", leave);
      this.#waiting += 1;
      question.settled = () => {
        this.#waiting -= 1;
        signal?.removeEventListener("abort", leave);
        if ("fault" in question) reject(question.fault);
        else resolve(question.found);
      };
      this.#act((now) => this.#core.ask(question, now));
    });
  }

  /** Tells the core something, and does what it says. */
  #act(step) {
    step(performance.now());
    for (let todo = this.#core.take(); todo.length; todo = this.#core.take()) for (const [what, ...words] of todo) this[`_${what}`](...words);
    if (this.#core.next < this.#timerAt) {
      clearTimeout(this.#timer);
      this.#timerAt = this.#core.next;
      this.#timer = setTimeout(() => {
        this.#timerAt = Infinity;
        this.#act((now) => this.#core.passed(now));
      }, Math.max(this.#core.next - performance.now(), 0));
    }
    if (this.#core.next === Infinity) { // nothing keeps a program alive that forgets to close it
      clearTimeout(this.#timer);
      this.#timerAt = Infinity;
    }
    if (this.#core.isEmpty) for (const resolve of this.#closed.splice(0)) resolve();
    const isHeld = this.#waiting > 0 || this.#closed.length > 0; // a program that leaves idle sessions open ends all the same
    for (const link of this.#links.values()) link.hold?.(isHeld);
  }

  _open(seat) {
    this.#links.set(seat, this.#open({
      opened: () => this.#act((now) => this.#core.opened(seat, now)),
      received: (bytes) => {
        this.#act((now) => this.#core.received(seat, bytes, now));
        if (this.#core.hasMuch(seat)) this.#rest(this.#links.get(seat));
      },
      lost: (why, isFinal) => this.#act((now) => this.#core.lost(seat, new Broken(why), now, isFinal)),
    }));
  }

  /** Answers that still come are read a moment later, and many at once: each reading costs more than an answer. */
  #rest(link) {
    if (!link?.pause) return;
    link.pause();
    if (!this.#resting.length) {
      setTimeout(() => { for (const one of this.#resting.splice(0)) one.resume(); }, REST);
    }
    this.#resting.push(link);
  }

  _send(seat, bytes) { this.#links.get(seat)?.send(bytes); }
  _close(seat) {
    this.#links.get(seat)?.close();
    this.#links.delete(seat);
  }
  _tell(name, detail) { this.dispatchEvent(new ClientEvent(name, detail)); }
  _settled(question) { question.settled(); }
}

/** The options that an address says: times in seconds there, `tls` (1, or a file of authorities) and `token` (a file that has it). */
function optionsOf(address) {
  const url = new URL(address);
  if (url.protocol !== "othello:" || !url.hostname || url.username || !["", "/"].includes(url.pathname)) throw new RangeError("it isn't of that form");
  const options = { host: url.hostname.replace(/^\[|\]$/g, ""), ...(url.port && { port: Number(url.port) }) };
  for (const [name, value] of url.searchParams) {
    if (name === "tls") options.secure = ["", "0"].includes(value) ? false : value === "1" || { ca: textIn(value) };
    else if (name === "token") options.token = textIn(value).trim();
    else options[name] = ["silence", "outage", "patience", "timeout"].includes(name) ? 1000 * value : Number(value);
  }
  return options;
}

/** A client of the server that an address names: `othello://host:port`, and `?tls=1` or any other option by its name. Without one, COLUWEN_URL's
 * or this host's. */
export function connect(address = globalThis.process?.env.COLUWEN_URL || `othello://${HOST}:${PORT}`, options = {}) {
  try {
    return new Client({ ...optionsOf(address), ...options });
  } catch (fault) {
    throw new RangeError(`${address} is no address, othello://host:port?tls=1: ${fault.message}`, { cause: fault });
  }
}
