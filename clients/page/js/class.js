// A class: the teacher's board has a link, and whoever opens it sees what the teacher shows, as it is shown. The teacher sees who follows, and who raises
// a hand, with the board that he looks at.

import { ServiceFault, lines, pause, question } from "./lines.js";

const KEPT = "class"; // by this name the browser keeps the class of this page, so that it isn't lost when the page is loaded again
const ANSWERS = 400, BEATS = 3000, SILENCE = 10000; // milliseconds: within which another tab answers, speaks again, and is taken for gone

/** What the browser's session keeps; nothing where it keeps nothing. */
function remembered() {
  try {
    return JSON.parse(sessionStorage.getItem(KEPT));
  } catch {
    return null;
  }
}

/** The teacher's side: tells the service each state, and hears who follows. */
export class Teacher {
  /** `told` is called with how the class stands (nothing, lost or closed), `heard` with {followers, pupils}. */
  constructor(told, heard) {
    Object.assign(this, { told, heard, stop: null });
    this.keep(remembered());
  }

  keep(room) {
    this.room = room;
    try {
      if (room) sessionStorage.setItem(KEPT, JSON.stringify(room));
      else sessionStorage.removeItem(KEPT);
    } catch {
      // then it lasts as long as the page
    }
    this.stop?.abort();
    this.stop = room ? new AbortController() : null;
    if (room) this.hear(room, this.stop.signal);
  }

  async open(state) {
    this.shown = state;
    this.keep(await question("class", { method: "POST", body: { state } }));
  }

  /** Hears who follows, until the class ends. */
  async hear({ room, key }, signal) {
    for (let wait = 1; !signal.aborted; wait = Math.min(2 * wait, 8)) {
      try {
        await lines(`class/${room}/pupils`, { method: "POST", body: { key }, signal }, (told) => {
          wait = 1;
          this.told("");
          this.heard(told);
        });
      } catch (fault) {
        if (fault instanceof ServiceFault && fault.status === 404 && !signal.aborted) {
          this.keep(null);
          return this.told("closed");
        }
        if (!signal.aborted) this.told("lost");
      }
      await pause(wait, signal);
    }
  }

  /** Shows a state, if it is another than is shown; only the last one counts where they come faster than they can be told. */
  async show(state) {
    if (!this.room || state === this.shown) return;
    this.next = this.shown = state;
    if (this.telling) return;
    this.telling = true;
    while (this.room && this.next !== undefined) {
      const now = this.next;
      this.next = undefined;
      try {
        await question(`class/${this.room.room}`, { method: "POST", body: { key: this.room.key, state: now } });
        this.told("");
      } catch (fault) {
        if (fault instanceof ServiceFault && fault.status === 404) this.keep(null);
        this.told(this.room ? "lost" : "closed");
        if (this.room) this.next ??= now;
        await pause(2);
      }
    }
    this.telling = false;
  }

  async close() {
    const { room } = this;
    this.keep(null);
    if (room) await question(`class/${room.room}`, { method: "POST", body: { key: room.key, state: null } }).catch(() => {});
  }
}

/** Tells the class of a pupil: {pupil, name, alone, state}, where a state is the board with which a hand is raised. Whether it was heard. */
export async function tellOf(room, pupil) {
  try {
    await question(`class/${encodeURIComponent(room)}/pupil`, { method: "POST", body: pupil });
    return true;
  } catch {
    return false;
  }
}

/**
 * What a class shows, for all tabs of a browser by one connection, as a browser has six for a host and each that follows would take one for itself.
 * One tab hears the service and passes on what it hears; where it leaves or falls silent another one does.
 */
class Shared {
  /** `open` hears the service until its signal gives that up, and calls what it is given with each line; `heard` is called with each line. */
  constructor(name, open, heard) {
    Object.assign(this, { open, heard, id: Math.random(), since: 0, stop: null, last: null, closed: false });
    this.channel = new BroadcastChannel(name);
    this.channel.onmessage = ({ data }) => this.hear(data);
    this.leaves = () => this.say("gone");
    addEventListener("pagehide", this.leaves);
    this.beat = setInterval(() => this.stop && this.say("lead", this.last), BEATS);
    this.say("who");
    this.wait(ANSWERS);
  }

  say(kind, line = null) {
    this.channel.postMessage({ kind, line, id: this.id, since: this.since });
  }

  /** Waits for another tab's voice so long, and then hears the service itself. */
  wait(time) {
    clearTimeout(this.timer);
    this.timer = setTimeout(() => this.lead(), time);
  }

  lead() {
    if (this.closed || this.stop) return;
    this.since = Date.now();
    this.stop = new AbortController();
    this.say("lead", this.last);
    this.open(this.stop.signal, (line) => {
      this.last = line;
      this.say("line", line);
      this.heard(line);
    });
  }

  hear({ kind, line, id, since }) {
    if (this.closed) return;
    if (kind === "who") return void (this.stop && this.say("lead", this.last));
    if (kind === "gone") return void (this.stop || this.wait(200 * Math.random()));
    if (this.stop && (since < this.since || (since === this.since && id < this.id))) return this.say("lead", this.last); // the one that began last goes on
    this.stop?.abort();
    this.stop = null;
    this.wait(SILENCE);
    if (!line || JSON.stringify(line) === JSON.stringify(this.last)) return;
    this.last = line;
    this.heard(line);
  }

  close() {
    if (this.stop) this.say("gone");
    this.closed = true;
    this.stop?.abort();
    clearTimeout(this.timer);
    clearInterval(this.beat);
    removeEventListener("pagehide", this.leaves);
    this.channel.close();
  }
}

/** A pupil's side: calls `shown` with each state, and `told` with how the class stands. */
export class Pupil {
  /** `who` gives what the class knows of this pupil. */
  constructor(room, who, shown, told) {
    Object.assign(this, { room, who, shown, told });
    this.shared = new Shared(`class-${room}`, (signal, heard) => this.follow(signal, heard), (line) => this.take(line));
  }

  take(line) {
    if (line.state === undefined) return;
    if (line.state === null) return this.end("closed");
    this.told("following");
    this.shown(line.state);
  }

  async follow(signal, heard) {
    for (let wait = 1; !signal.aborted; wait = Math.min(2 * wait, 8)) {
      try {
        await lines(`class/${encodeURIComponent(this.room)}/follow`, { method: "POST", body: this.who(), signal }, (line) => {
          if (signal.aborted || line.state === undefined) return;
          wait = 1;
          heard(line);
        });
      } catch (fault) {
        if (signal.aborted) return;
        if (fault instanceof ServiceFault && fault.status === 404) return this.end("closed");
      }
      if (signal.aborted) return;
      this.told("lost");
      await pause(wait, signal);
    }
  }

  end(how) {
    this.shared.close();
    this.told(how);
  }
}
