// The one grammar of a server's answers: that of _answers.py of the Python package, which states it in words; clients/conformance.txt has
// the rows that the clients of all languages are tried by.
import { Broken, Refused } from "./faults.mjs";
import { GREATEST } from "./score.mjs";

export const LONGEST = 1115; // bytes of an answer, with its LF
/** What answers a line, by its first word: N is a number, V a value, P a square or pass, A and B the line's next words, J the next job. */
const FORMS = {
  HELLO: "WELCOME A B",
  RESERVE: "RESERVED A B",
  ASK: "JOB J",
  GET: "DONE A V (P|-)|(PENDING|SPENT|CANCELLED) A",
  WAIT: "DONE A V (P|-)|(SPENT|CANCELLED) A",
  TABLE: "TABLE A( P[=<>]V)*|(PENDING|SPENT|CANCELLED) A",
  CANCEL: "CANCELLED A",
  QUOTA: "QUOTA N N N",
  LIVE: "LIVE N N",
  INFO: "INFO N( [!-~]+)*",
  BYE: "BYE",
};
const SIGNS = { N: "(0|[1-9][0-9]{0,7})", V: "(0|-?[1-9][0-9]{0,5})", P: "([a-h][1-8]|pass)" };

function formOf([word, A, B], jobs) {
  const signs = { ...SIGNS, A, B, J: jobs + 1 };
  return new RegExp(`^(${FORMS[word].replace(/\b[A-Z]\b/g, (sign) => signs[sign])})$`);
}

const JOB = /^(GET|WAIT|TABLE) ([1-9][0-9]{0,7})$/; // a line whose answer is mostly one of the next two
const DONE = new RegExp(`^DONE ([1-9][0-9]{0,7}) ${SIGNS.V} (${SIGNS.P}|-)$`);
const TABLE = new RegExp(`^TABLE ([1-9][0-9]{0,7})((?: ${SIGNS.P}[=<>]${SIGNS.V})+)$`);

/** The same as `parse` of what comes most; null of all else. */
function quick(line, text, jobs) {
  if (text === `JOB ${jobs + 1}`) return line.startsWith("ASK ") ? { state: "JOB", numbers: [jobs + 1], value: 0, move: "", entries: [], more: "" } : null;
  const asked = JOB.exec(line), found = asked && (asked[1] === "TABLE" ? TABLE : DONE).exec(text);
  if (!found || found[1] !== asked[2] || text.length >= LONGEST) return null;
  const numbers = [Number(found[1])];
  if (asked[1] !== "TABLE") {
    const value = Number(found[2]);
    return Math.abs(value) <= GREATEST ? { state: "DONE", numbers, value, move: found[3], entries: [], more: "" } : null;
  }
  const entries = [], moves = new Set();
  for (const word of found[2].slice(1).split(" ")) {
    const at = word.startsWith("pass") ? 4 : 2, value = Number(word.slice(at + 1));
    if (Math.abs(value) > GREATEST) return null;
    entries.push([word.slice(0, at), word[at], value]);
    moves.add(word.slice(0, at));
  }
  return moves.size === entries.length ? { state: "TABLE", numbers, value: 0, move: "", entries, more: "" } : null;
}

/**
 * The answer to a line (both without LF), where so many jobs were asked before: { state, numbers (a job's first), value, move, entries,
 * more }. Throws Refused where it is an ERR, and Broken where it is none to that line.
 */
export function parse(line, text, jobs = 0) {
  return quick(line, text, jobs) ?? parseAny(line, text, jobs);
}

function parseAny(line, text, jobs) {
  const [state, ...told] = text.split(" ");
  if (/^ERR [1-9][0-9]$/.test(text)) throw new Refused(Number(told[0]));
  const value = state === "DONE" ? Number(told[1]) : 0;
  const parts = state === "TABLE" ? told.slice(1).map((entry) => entry.split(/([=<>])/)) : [];
  const entries = parts.map(([move, sign, worth]) => [move, sign, Number(worth)]);
  const isTwice = new Set(entries.map(([move]) => move)).size !== entries.length;
  const isTooGreat = [value, ...entries.map((entry) => entry[2])].some((each) => Math.abs(each) > GREATEST);
  if (text.length >= LONGEST || !formOf(line.split(" "), jobs).test(text) || isTwice || isTooGreat) {
    throw new Broken(`${line} was answered by ${JSON.stringify(text.slice(0, 120))}`);
  }
  const numbers = told.slice(0, ["DONE", "TABLE", "INFO"].includes(state) ? 1 : 3).map(Number);
  return { state, numbers, value, move: state === "DONE" ? told[2] : "", entries, more: state === "INFO" ? text.slice(5 + told[0].length) : "" };
}
