// A worker of the engine: one search at a time, by the proved module. A classic script without imports, so that a page opened from a disk can
// begin it from a Blob too; node's worker threads begin it as it is.
//
// It is given { bytes } first, and answers { ready: true }. Then each { own, opp, depth } is answered by { value, choice }, and each { own, opp,
// depth, choice, guess } by { value }, sooner where the guess (which may be left out) is near. What can't be answered is answered by { fault },
// and the worker is of no more use.
(async () => {
  const port = typeof self === "undefined" ? (await import("node:worker_threads")).parentPort : self;
  const NO_ANALYSIS = -(2n ** 63n), NO_VALUE = -(2 ** 31), NO_CHOICE = 65;
  let engine;

  function answer({ own, opp, depth, choice, guess }) {
    if (choice === undefined) {
      const found = engine.analyse(own, opp, depth); // one number has the value and the choice
      if (found === NO_ANALYSIS) throw new RangeError("the module refuses this board or depth");
      const best = Number(found & 127n);
      return { value: Number(found >> 7n), choice: best === NO_CHOICE ? null : best };
    }
    const value = guess === undefined ? engine.choice_value(own, opp, depth, choice) : engine.choice_value_near(own, opp, depth, choice, guess);
    if (value === NO_VALUE) throw new RangeError("the module refuses this board, depth or choice");
    return { value };
  }

  const hear = async (asked) => {
    try {
      if (asked.bytes) {
        engine = (await WebAssembly.instantiate(asked.bytes, {})).instance.exports;
        port.postMessage({ ready: true });
      } else port.postMessage(answer(asked));
    } catch (fault) {
      port.postMessage({ fault: `${fault.name}: ${fault.message}` });
    }
  };
  if (port.on) port.on("message", hear);
  else port.onmessage = ({ data }) => hear(data);
})();
