// What stands round the moves of a game where people copy it: a link, a page's HTML, lines above that say who played.

import { Unread } from "./unread.js";

const MOVES = /(?:[a-h][1-8][\s,.;-]*(?:\d+[.)]\s*)?){3,}/i;
const ENTITIES = { amp: "&", lt: "<", gt: ">", quot: '"', nbsp: " " };

/** The text of a page's HTML. */
function bare(html) {
  const body = html.replace(/<(script|style|head)\b[\s\S]*?<\/\1\s*>/gi, " ").replace(/<(br|p|div|tr|li|h\d)\b[^>]*>/gi, "\n");
  const letter = (whole, code, name) => (code ? String.fromCodePoint(Math.min(code, 0xffff)) : (ENTITIES[name] ?? whole));
  return body.replace(/<[^>]*>/g, " ").replace(/&(?:#(\d+)|(\w+));/g, letter);
}

/** A text without a link or HTML round it; `Unread` where neither has moves. */
export function unwrapped(text) {
  const link = /^\s*https?:\/\/([^\s/?#]+)(\S*)\s*$/i.exec(text);
  if (link) {
    const found = MOVES.exec(link[2].replace(/%20|[+_]/g, " "));
    if (!found) throw new Unread("link", { word: link[1].slice(0, 60) });
    return found[0];
  }
  if (!/^\s*<(!doctype|html|head|body|[a-z]\w*[\s>])/i.test(text)) return text;
  const inside = bare(text);
  if (!MOVES.test(inside)) throw new Unread("html");
  return inside.split("\n").filter((line) => line.trim()).join("\n");
}

const LABELS = {
  black: "black|schwarz|b|黒番|黒|先手|●", white: "white|weiß|w|白番|白|後手|○", date: "date|datum|対局日|日付|日時",
  event: "event|tournament|turnier|place|大会名|大会|棋戦", result: "result|score|ergebnis|結果",
};
const ANY = Object.values(LABELS).join("|");
const LABELLED = new RegExp(`(?:^|[\\s,;])(${ANY})\\s*[:=]\\s*(.*?)(?=[\\s,;]+(?:${ANY})\\s*[:=]|$)`, "giu");
const NAMED = { black: "b|black|schwarz|黒番?|●", white: "w|white|weiß|白番?|○" };
const WHO = (side) => `\\s*(.+?)\\s*[(（]\\s*(?:${NAMED[side]})\\s*[)）]`;
const AGAINST = "\\s*(?:vs?\\.?|gegen|対|×|[-–])\\s*";
const PAIR = (one, two) => [one, two, new RegExp(`^${WHO(one)}${AGAINST}${WHO(two)}`, "iu")];
const PAIRS = [PAIR("black", "white"), PAIR("white", "black")];
const PLAIN = new RegExp("^\\s*(\\S.{0,40}?)\\s+(?:vs?\\.?|gegen|対)\\s+(\\S.{0,40}?)\\s*$", "iu"); // the first one is Black

/** What a line says of a game, as {black, white, event, date, result}; nothing where it says nothing of it. */
function lineRead(line) {
  for (const [one, two, pattern] of PAIRS) {
    const found = pattern.exec(line);
    if (found) return { [one]: found[1], [two]: found[2] };
  }
  const said = {};
  for (const [, label, value] of line.matchAll(LABELLED)) {
    const name = Object.keys(LABELS).find((one) => LABELS[one].split("|").includes(label.toLowerCase()));
    said[name] = value.trim();
  }
  if (Object.keys(said).length) return said;
  const found = PLAIN.exec(line);
  return found ? { black: found[1], white: found[2] } : null;
}

/** The lines above the first with moves: {info, count}. One that says nothing of a game is its event, where others do. */
export function headsOf(lines) {
  const count = lines.findIndex(({ line }) => MOVES.test(line)), info = {};
  const heads = count > 0 ? lines.slice(0, count).map(({ line }) => [line.trim(), lineRead(line)]) : [];
  if (!heads.some(([, said]) => said)) return { info, count: 0 };
  for (const [line, said] of heads) Object.assign(info, said ?? { event: info.event ?? line.slice(0, 80) });
  const discs = /(\d{1,2})\s*[-:対]\s*(\d{1,2})/.exec(info.result ?? "");
  if (discs) info.result = String(Number(discs[1]) - Number(discs[2]));
  else delete info.result;
  return { info, count };
}
