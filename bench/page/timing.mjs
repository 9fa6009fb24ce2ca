// Times the values of all moves of mid-game positions, each exact, by two modules of the page's engine in turns: of each position the best of the
// rounds counts. All values are compared. For node (moves.mjs) and for browsers (browsers).

const choicesOf = (engine, own, opp) => Array.from({ length: 65 }, (_, code) => code).filter((code) => engine.is_choice(own, opp, code));

/** A position of a game whose choices a generator picks, 22 to 45 plies after the opening, and its choices. */
function drawn(engine, at) {
  let own = 0x0000_0008_1000_0000n, opp = 0x0000_0010_0800_0000n, random = 7 + at;
  for (let ply = 0; ply < 22 + (at % 24); ply += 1) {
    const choices = choicesOf(engine, own, opp);
    if (!choices.length) break;
    random = (random * 48271) % 2147483647;
    const code = choices[random % choices.length];
    [own, opp] = [engine.own_after(own, opp, code), engine.opp_after(own, opp, code)].map((word) => BigInt.asUintN(64, word));
  }
  return { own, opp, choices: choicesOf(engine, own, opp) };
}

/** The depth that the page looks at before this one: it takes 2, 4, 6 and so on, and the wanted depth last. */
const before = (depth) => depth - (depth % 2 ? 1 : 2);

/** What each move is worth. */
const all = (engine, { own, opp, choices }, depth) => choices.map((code) => engine.choice_value(own, opp, depth, code));

/** The ways that are timed: the module of a commit, that of now, and that of now as the page asks it, by guesses from the depth before. */
const WAYS = {
  before: (modules, place, depth) => all(modules.before, place, depth),
  now: (modules, place, depth) => all(modules.now, place, depth),
  guessed: (modules, { own, opp, choices, guesses }, depth) => choices.map((code, at) => modules.now.choice_value_near(own, opp, depth, code, guesses[at])),
};

/** The depths that are told. */
const DEPTHS = [6, 7, 8];

/** Lines of what each way took at each depth, by a clock in seconds; `pause` is awaited between positions. Of one position all ways at all depths are timed in turns, so
 * that what else the machine does meets all of them. What is found in a first round isn't told: the modules are compiled meanwhile. */
export async function compared(modules, count, rounds, clock, pause = () => {}) {
  const places = Array.from({ length: count }, (_, at) => drawn(modules.now, at)), names = Object.keys(WAYS);
  const each = DEPTHS.flatMap((depth) => names.map((name) => ({ depth, name, best: places.map(() => Infinity) })));
  for (let round = 0; round <= rounds; round += 1) {
    for (const [at, place] of places.entries()) {
      for (const depth of DEPTHS) {
        place.guesses = all(modules.now, place, before(depth));
        const told = each.filter((one) => one.depth === depth).map((one) => {
          const begun = clock(), values = WAYS[one.name](modules, place, depth);
          if (round) one.best[at] = Math.min(one.best[at], clock() - begun);
          return values.join();
        });
        if (new Set(told).size !== 1) throw new Error(`other values at depth ${depth}`);
        await pause();
      }
    }
  }
  for (const one of each) one.sum = one.best.reduce((sum, time) => sum + time, 0);
  return DEPTHS.map((depth) => {
    const told = each.filter((one) => one.depth === depth).map((one) => `${one.name} ${one.sum.toFixed(3)} s, ${(one.sum / each[0].sum).toFixed(2)}`);
    return `all moves of ${count} positions at depth ${depth}, and as a part of depth 6 before: ${told.join("; ")}`;
  });
}
