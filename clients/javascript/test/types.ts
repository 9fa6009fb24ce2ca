// What a page's program is told of its types, without those of node: `clients/tier tsc` checks it by tsc --strict.
import { connect, Engine, FormatError, games, Late, Move, Position, type Analyst, type Outcome, type Result } from "coluwen";

export async function asked(analyst: Analyst): Promise<string> {
  const places: Position[] = [Position.opening().play(19), Position.opening().play("d3"), Position.opening().play(new Move("d3"))];
  for await (const { question, result, fault } of analyst.analyseMany(places, 4)) {
    const place: Position = question;
    if (result) return `${place.text} ${result.best ?? "-"} ${result.score.black}`;
    if (fault instanceof FormatError) return `${fault.column}`;
  }
  const found: Result[] = [];
  try {
    for await (const one of analyst.deepen(places[0]!, undefined, { timeout: 1000 })) found.push(one);
  } catch (fault) {
    if (fault instanceof Late) return String(fault.deepest?.depth);
  }
  return String(found.length);
}

export async function pairs(): Promise<void> {
  const client = connect("othello://h?tls=1", { secure: { ca: "" } });
  const kept: Outcome<readonly [string, number]>[] = [];
  for await (const one of client.analyseMany([["x", 4] as const])) kept.push(one);
  client.addEventListener("silent", ({ detail }) => detail.message);
  await new Engine({ workers: 2 }).close();
  for (const one of games("f5d6", { file: "g" })) if (!(one instanceof FormatError)) one.moves.join("");
  // @ts-expect-error a depth is a number
  await client.analyse("x", "6");
  // @ts-expect-error there is no such option
  new Engine({ threads: "2" });
}
