// Times the values of all moves of mid-game positions by the page's module in node, against that of a commit: in turns, by processor time, of
// each position the best of the rounds. All values are compared. `bench/page/browsers` does it in Chromium and Firefox.
//
// usage: node bench/page/moves.mjs COMMIT [POSITIONS [ROUNDS]]      (24 positions of 22 to 45 plies, 3 rounds, depths 6 to 8)
import { execFileSync } from "node:child_process";
import { readFileSync } from "node:fs";
import { compared } from "./timing.mjs";

const [commit, count = "24", rounds = "3"] = process.argv.slice(2);
const top = new URL("../../", import.meta.url), name = "clients/page/engine/page32.wasm";
const load = async (bytes) => (await WebAssembly.instantiate(bytes, {})).instance.exports;
const modules = {
  before: await load(execFileSync("git", ["show", `${commit}:${name}`], { cwd: top, maxBuffer: 1 << 24 })),
  now: await load(readFileSync(new URL(name, top))),
};

const clock = () => {
  const used = process.cpuUsage();
  return (used.user + used.system) / 1e6;
};
for (const line of await compared(modules, Number(count), Number(rounds), clock)) console.log(line);
