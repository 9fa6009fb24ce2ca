// Prints what a folder's lowered module answers: node clients/page/engine/values.mjs FOLDER. Played from the opening by a fixed rule, of each
// position: how the game stands, the legal squares, the value and best choice 0 to 5 plies deep, and what each choice leads to and is worth, also by a guess.
import { readFileSync } from "node:fs";

const bytes = readFileSync(`${process.argv[2]}/page32.wasm`);
const engine = (await WebAssembly.instantiate(bytes, {})).instance.exports;
for (let game = 0; game < 4; game += 1) {
  let own = 0x0000_0008_1000_0000n, opp = 0x0000_0010_0800_0000n;
  for (let ply = 0; engine.turn(own, opp) !== 3; ply += 1) {
    const choices = Array.from({ length: 65 }, (_, code) => code).filter((code) => engine.is_choice(own, opp, code));
    const worth = choices.map((code) => [code, engine.choice_value(own, opp, 1 + (ply % 4), code), engine.choice_value_near(own, opp, 1 + (ply % 4), code, 40 * ply - 900), engine.own_after(own, opp, code), engine.opp_after(own, opp, code)].join(":"));
    console.log(engine.turn(own, opp), engine.legal_squares(own, opp), Array.from({ length: 6 }, (_, depth) => engine.analyse(own, opp, depth)).join(), worth.join());
    const code = choices[(7 * ply + 3 * game) % choices.length];
    [own, opp] = [engine.own_after(own, opp, code), engine.opp_after(own, opp, code)];
  }
  console.log(3, engine.legal_squares(own, opp), engine.analyse(own, opp, 12), engine.analyse(own, opp, 13), engine.analyse(1n, 1n, 1), engine.choice_value(own, opp, 1, 64));
}
