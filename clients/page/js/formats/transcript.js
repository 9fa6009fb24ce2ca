// What stands round the moves of a game as people write them: letters of full width, and the result behind them.

const SCORE = /[\s,;:([]*(?:(\d{1,2})\s*[-:]\s*(\d{1,2})|([BbWw])?([+-]\d{1,2}|(?<![a-hA-H\d])0))(?:\.0+)?[\s,;.)\]]*$/;
const LONGEST_SCORE = 40; // letters
const NO_RESULT = /\s(?:\*|1-0|0-1|1\/2-1\/2)\s*$/;
const WIDE = { "\u3000": " ", "\u2212": "-", "\u2010": "-", "\u2013": "-", "\u30fc": "-" };

/** A text with its signs of full width as those of half, but for comments in braces; each is one sign, so that places stay. */
export const narrow = (text) => text.replace(/\{[^}]*\}|[\uff01-\uff5e\u3000\u2212\u2010\u2013\u30fc]/g, (sign) => (sign[0] === "{" ? sign : (WIDE[sign] ?? String.fromCharCode(sign.charCodeAt(0) - 0xfee0))));

/** A text of moves without the result behind them, and that: how many discs Black has more, as a text; none where none stands there. */
export function scored(text) {
  const bare = text.trimEnd().replace(NO_RESULT, ""), from = Math.max(bare.length - LONGEST_SCORE, 0), found = SCORE.exec(bare.slice(from));
  if (!found || !/[a-h][1-8]/i.test(bare.slice(0, from + found.index))) return { moves: bare, result: "" };
  const [, black, white, side, more] = found;
  return { moves: bare.slice(0, from + found.index), result: String(black ? Number(black) - Number(white) : (/w/i.test(side ?? "") ? -1 : 1) * Number(more)) };
}

/** A result of a head: `37-27` as how many discs Black has more; what says who won and no discs is none. */
export function told(text) {
  const found = /^(\d{1,2})\s*[-:]\s*(\d{1,2})$/.exec(text.trim());
  return found && !/^(1-0|0-1)$/.test(text.trim()) ? String(Number(found[1]) - Number(found[2])) : "";
}
