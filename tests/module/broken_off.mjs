// Calls that break off: at the end of the stack, where the module runs out of it, and where the host cuts them off, when no handler of the
// scripts runs. The next call is answered.
import { createContext, runInContext } from "node:vm";
import { same, text, thrown } from "./tally.mjs";

/** So many calls are to return, from more frames above the end than this they all should. */
const ENOUGH = 100;
const MOST_DEPTHS = 10_000;

/** Makes a call from so many frames above the end of the stack. */
function callFromDeep(above, call) {
  const dive = () => {
    let up = 0;
    try {
      up = dive() + 1;
    } catch {
      // the end
    }
    if (up === above) call();
    return up;
  };
  dive();
}

/** Makes a call from each depth near the end of the stack, up to where it has room: how many break off depends on how the host compiled it. */
function tryDeepCalls(call, isRight) {
  let [depths, returned, right] = [0, 0, 0];
  const counted = () => {
    try {
      call();
      returned += 1;
    } catch {
      // it broke off
    }
  };
  while (returned < ENOUGH && depths < MOST_DEPTHS) {
    depths += 1;
    callFromDeep(depths, counted);
    right += isRight() ? 1 : 0;
  }
  console.log(`${depths - returned} of ${depths} deep calls broke off`);
  same("deep calls break off", depths > returned, true);
  same("and some return", returned, ENOUGH);
  same("each call after one from the deep", right, depths);
}

/** Has the host cut calls of `nissy` off after these times, in milliseconds. */
async function tryCutOff(what, nissy, code, times, isRight) {
  const host = createContext({ nissy });
  for (const timeout of times) {
    const [, message] = await thrown(() => runInContext(code, host, { timeout }));
    same(`${what} cut off after ${timeout} ms`, message, `Script execution timed out after ${timeout}ms`);
    same(`a call after ${what} of ${timeout} ms`, isRight(), true);
  }
}

/** Cuts a search off within the module, and returns what the next call throws. */
async function thrownAfterCut(nissy) {
  const host = createContext({ nissy });
  const long = 'nissy.run(["near", "eo", "20", "9"], "R U F2 L D R B\\n", 2 ** 28)';
  let seen = [];
  // on a busy machine the time may be over before the module is called
  for (const timeout of [30, 100, 300, 1000]) {
    await thrown(() => runInContext(long, host, { timeout }));
    seen = await thrown(() => nissy.invert("R"));
    if (seen[0] !== "nothing") break;
  }
  return seen;
}

/** If no other instance can be made, each call says so, and goes on once one can be. */
async function tryNoOtherInstance(nissy, isRight) {
  const { Instance } = WebAssembly;
  const wanted = ["EngineMissing", "the engine broke off, and can't be started again: no memory"];
  WebAssembly.Instance = function refused() {
    throw new RangeError("no memory");
  };
  same("the first call without another instance", await thrownAfterCut(nissy), wanted);
  same("each later one", await thrown(() => nissy.invert("R")), wanted);
  WebAssembly.Instance = Instance;
  same("a call when there is one again", isRight(), true);
}

/** Calls that break off in a search, in a run and while tables are built. */
export async function tryTraps(nissy) {
  const isRight = () => {
    try {
      const [{ moves }, more] = nissy.solve("eofb", "F");
      return moves === "F" && more.moves === "F'" && text(nissy.run(["invert", "R U"]).out) === "U' R'\n";
    } catch {
      return false;
    }
  };
  tryDeepCalls(() => nissy.count("eofb", "R U F"), isRight);
  tryDeepCalls(() => nissy.run(["count", "eofb", "20"], "R U F\n"), isRight);
  for (const [what, code] of [
    ["a search", 'nissy.count("eo", "R U F2 L D R B", { slack: 12 })'],
    ["a run", 'nissy.run(["near", "eo", "20", "6"], "R U F2 L D R B\\n")'],
    ["tables", "for (;;) { nissy.count('dr-eoud', 'R'); nissy.count('dr-eorl', 'U'); nissy.count('dr-eofb', 'U') }"],
  ]) {
    await tryCutOff(what, nissy, code, [1, 5, 20, 60], isRight);
  }
  await tryNoOtherInstance(nissy, isRight);
}
