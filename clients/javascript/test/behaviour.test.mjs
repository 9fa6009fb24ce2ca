// The behaviour rows (clients/behaviour) by this client: rows.py there has the servers, and says what is to be called. Eight rows at once.
import assert from "node:assert/strict";
import { execFileSync, spawn } from "node:child_process";
import { after, describe, it } from "node:test";
import readline from "node:readline";
import { fileURLToPath } from "node:url";
import { ColuwenError, FormatError, connect } from "../src/index.mjs";

const ROWS = fileURLToPath(new URL("../../behaviour/rows.py", import.meta.url));

function textOf(fault) {
  if (fault instanceof FormatError) return "fault Argument";
  if (!(fault instanceof ColuwenError)) return fault instanceof RangeError || fault instanceof TypeError ? "fault Argument" : `fault ${fault.name === "AbortError" ? "Stopped" : fault.stack}`;
  const fields = ["number", "depth", "greatest"].filter((name) => name in fault).map((name) => `${name}=${fault[name]}`);
  return ["fault", fault.constructor.name, ...fields].join(" ");
}
const resultText = ({ score, best, table }) => ["result", score.value, best ?? "-", ...table].join(" ");

/** The lines that a call gives. */
async function callOf(client, [call, ...words]) {
  const isOption = (word) => /^[a-z]+=[a-z0-9]+$/.test(word);
  const how = Object.fromEntries(words.filter(isOption).map((word) => word.split("=")));
  const [depth, ...parts] = words.filter((word) => !isOption(word));
  const [text, options] = [parts.join(" "), { ...(how.timeout && { timeout: Number(how.timeout) }) }];
  if (how.abort) {
    const stop = new AbortController();
    options.signal = stop.signal;
    setTimeout(() => stop.abort(), Number(how.abort));
  }
  if (call === "ping") return assert.ok((await client.ping()) >= 0), ["done"];
  if (call === "close") return await client.close(), ["done"];
  if (call === "info") return [`info ${Object.entries(await client.info()).filter(([name]) => name !== "version").map((each) => each.join("=")).join(" ")}`];
  if (call === "analyse") return [resultText(await client.analyse(text, Number(depth), options))];
  if (call === "analyse_all") return [["moves", ...(await client.analyseAll(text, Number(depth), options))].join(" ")];
  return manyOf(client, Number(depth), text, how);
}

async function manyOf(client, depth, text, { order = "asked", take }) {
  const [found, told, isEndless] = [[], { taken: 0 }, text.endsWith(" endless")];
  const source = function* source() {
    for (const position of isEndless ? [text.replace(" endless", "")] : text.split(", ")) {
      do {
        told.taken += 1;
        yield position;
      } while (isEndless);
    }
  };
  for await (const { index, result, fault } of client.analyseMany(source(), depth, { order })) {
    found.push(`item ${index} ${result ? resultText(result) : textOf(fault)}`);
    if (found.length === Number(take)) break;
  }
  return isEndless ? [`taken ${told.taken}`] : found;
}

const rows = spawn("python3", [ROWS], { stdio: ["pipe", "pipe", "inherit"] });
const [clients, ends] = [new Map(), new Map()];

readline.createInterface({ input: rows.stdout }).on("line", async (line) => {
  const [row, number, ...words] = line.split(" ");
  const reply = (lines) => rows.stdin.write(`${number} ${lines.join("\t")}\n`);
  if (words[0] === "end") return ends.get(row)(words.slice(1).join(" "));
  if (words[0] !== "client") return reply(await callOf(clients.get(row), words).catch((fault) => [textOf(fault)]));
  clients.set(row, connect(words[1], words[2] ? { token: words[2] } : {}));
  return reply(["done"]);
});

describe("behaviour rows", { concurrency: 8, timeout: 400_000 }, () => {
  after(() => rows.kill());
  execFileSync("python3", [ROWS, "--names"], { encoding: "utf8" }).trim().split("\n").forEach((name, at) => it(name, async () => {
    const end = new Promise((resolve) => { ends.set(String(at), resolve); });
    rows.stdin.write(`${at} play\n`);
    assert.equal(await end, "");
  }));
});
