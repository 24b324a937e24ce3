// The engine in a worker, in node: its calls, and calls that are given up.
import { getEventListeners } from "node:events";
import { performance } from "node:perf_hooks";
import { Nissy, NissyWorker, loadNissy } from "../../build/web/module/node.js";
import { WorkerCalls } from "../../build/web/module/workers/later-calls.js";
import { tryEach, tryLists, tryMany as tryManyLines, tryOptions, tryReadOptions, tryRows, tryWrongValues } from "./called.mjs";
import { tryAttempts, tryBounds, tryChecks, tryMixed, tryPairs } from "./judged.mjs";
import { ended, moduleBytes, same, text, thrown } from "./tally.mjs";

const LONG = ["count", "eo", "R U F2 L D R B", { slack: 14 }];
// what a worker needs to start again, with the tables of a reduction, on a busy machine
const SOON = 30_000;
const CALLS = 2_000;
const AT_ONCE = 50;

const after = (milliseconds) => new Promise((done) => setTimeout(done, milliseconds));

/** A long search, with these options beside its own. */
const long = (worker, options) => worker[LONG[0]](LONG[1], LONG[2], { ...LONG[3], ...options });

async function isRight(worker) {
  const [inverse, [solution]] = [await worker.invert("R U' F2"), await worker.solve("drud-eofb", "R U", { most: 1 })];
  return inverse === "F2 U R'" && solution.moves === "U' R" && solution.length === 2;
}

/** Searches that are given up while they run, at times from at once to well within them. */
async function tryStopped(worker) {
  for (const time of [0, 1, 3, 10, 30, 100, 300]) {
    const stop = new AbortController();
    const running = thrown(() => long(worker, { signal: stop.signal }));
    const waiting = worker.invert("R U");
    await after(time);
    const begun = performance.now();
    stop.abort();
    const [name] = await running;
    same(`a search stopped after ${time} ms`, name, "AbortError");
    same(`a call that waited for it`, await waiting, "U' R'");
    same(`a call after it`, await isRight(worker), true);
    same("these soon", performance.now() - begun < SOON, true);
    same("nothing listens to the signal any more", getEventListeners(stop.signal, "abort").length, 0);
  }
}

/** Calls that are given up before they run, and reasons of the caller's own. */
async function trySignals(worker) {
  const reason = new RangeError("no more");
  const before = await thrown(() => worker.invert("R", { signal: AbortSignal.abort(reason) }));
  same("a signal that was given before", before, ["RangeError", "no more"]);
  const attempts = await thrown(() => worker.checkAttempts("R\n\nR'", { signal: AbortSignal.abort(reason) }));
  same("one that was given before attempts", attempts, ["RangeError", "no more"]);
  same("a signal of a time", (await thrown(() => long(worker, { signal: AbortSignal.timeout(20) })))[0], "TimeoutError");
  const [first, second] = [new AbortController(), new AbortController()];
  const running = thrown(() => long(worker, { signal: first.signal }));
  const givenUp = thrown(() => worker.invert("R", { signal: second.signal }));
  const kept = worker.invert("R U");
  second.abort(reason);
  same("a call given up while it waits", await givenUp, ["RangeError", "no more"]);
  first.abort(reason);
  same("the one that ran", await running, ["RangeError", "no more"]);
  same("the one after both", await kept, "U' R'");
  second.abort();
  const { signal } = new AbortController();
  for (let at = 0; at < 20; at += 1) await worker.invert("R", { signal });
  await thrown(() => worker.invert("q", { signal }));
  same("nothing listens to a signal after the calls", getEventListeners(signal, "abort").length, 0);
  const deaf = { aborted: false, addEventListener: () => {} };
  for (const wrong of [null, 1, "stop", {}, { aborted: false }, deaf, new AbortController()]) {
    const refused = await thrown(() => worker.invert("R", { signal: wrong }));
    same(`no signal: ${String(wrong)}`, refused, ["TypeError", "the signal is no AbortSignal"]);
  }
}

const CALLS_WITHOUT_OPTIONS = [
  ["run", ["steps"], ""], ["invert", "R"], ["checkAttempts", "R"], ["scramble", 1, 2, 3], ["countAll", "eofb", []],
];

/** Options that are none: a room that is given by itself, as `Nissy` takes it, isn't lost without a word. */
async function tryNoOptions(worker) {
  for (const wrong of [null, 2, "2", () => 2]) {
    for (const [call, ...given] of CALLS_WITHOUT_OPTIONS) {
      const refused = await thrown(() => worker[call](...given, wrong));
      same(`${call}: no options: ${String(wrong)}`, refused, ["TypeError", "the options are no object"]);
    }
  }
}

/** Options that a worker's calls have beside those of `Nissy`: only an object's own ones, each of which is read once. */
async function tryOwnOptions(worker) {
  const inherited = Object.create({ signal: AbortSignal.abort(), room: 0 });
  same("no signal is inherited", await worker.invert("R", inherited), "R'");
  same("nor a room", text((await worker.run(["invert", "R"], "", inherited)).out), "R'\n");
  const read = [];
  const options = {
    get room() {
      read.push("room");
      return 1;
    },
    get signal() {
      read.push("signal");
      return new AbortController().signal;
    },
  };
  same("a room and a signal", text((await worker.run(["invert", "R"], "", options)).out), "R");
  same("both are read once", read, ["room", "signal"]);
}

/** Many calls at once on one signal: it is listened to once, so node warns of nothing, and it gives up all of them. */
async function tryOneSignal(worker) {
  const warnings = [];
  const warned = ({ name }) => warnings.push(name);
  process.on("warning", warned);
  const kept = new AbortController();
  const lines = await Promise.all(Array.from({ length: AT_ONCE }, () => worker.invert("R U", { signal: kept.signal })));
  same("calls on one signal", lines.filter((line) => line === "U' R'").length, AT_ONCE);
  same("nothing listens to it after them", getEventListeners(kept.signal, "abort").length, 0);
  const stop = new AbortController();
  const running = thrown(() => long(worker, { signal: stop.signal }));
  const waiting = Array.from({ length: AT_ONCE }, () => thrown(() => worker.invert("R", { signal: stop.signal })));
  const other = worker.invert("R U");
  same("one listens for all of them", getEventListeners(stop.signal, "abort").length, 1);
  await after(20);
  stop.abort(new Error("no more"));
  same("the one that ran", await running, ["Error", "no more"]);
  const given = await Promise.all(waiting);
  same("those that waited", given.filter(([, message]) => message === "no more").length, AT_ONCE);
  same("a call without that signal", await other, "U' R'");
  same("nothing listens to a signal that was given", getEventListeners(stop.signal, "abort").length, 0);
  // node warns in a later turn
  await after(20);
  process.off("warning", warned);
  same("node warns of nothing", warnings, []);
}

/** Calls given up all at once. */
async function tryAllAtOnce(worker) {
  for (const [how, isRunning] of [["drop", true], ["stop", false], ["end", false]]) {
    const stop = new AbortController();
    const running = thrown(() => long(worker, { signal: stop.signal }));
    const waiting = [1, 2, 3].map(() => thrown(() => worker.invert("R")));
    await after(20);
    worker[how]();
    for (const call of waiting) same(`${how}: a call that waits`, await call, ["AbortError", "stopped"]);
    if (isRunning) stop.abort(new Error("by its signal"));
    same(`${how}: the one that runs`, await running, isRunning ? ["Error", "by its signal"] : ["AbortError", "stopped"]);
    same(`${how}: a call after it`, await isRight(worker), true);
  }
  worker.stop();
  worker.drop();
  same("where nothing runs, nothing is stopped", await isRight(worker), true);
}

/** Many calls, each answered by its own. */
async function tryMany(worker) {
  const turns = ["U", "R", "F", "D", "L", "B"];
  const inverses = Array.from({ length: CALLS }, (_, at) => worker.invert(turns[at % 6]));
  same("many calls at once", (await Promise.all(inverses)).every((line, at) => line === `${turns[at % 6]}'`), true);
  const answer = await worker.run(["count", "eofb", "20"], "R U F\n");
  same("a run", [answer.status, text(answer.out), text(answer.err), answer.full], [0, "length 1 solutions 2 nodes 20\n", "", false]);
  const cut = await worker.run(["invert"], "R\n", { room: 2 });
  same("a run in a room", [cut.status, text(cut.out), cut.full], [3, "R'", true]);
  const [, step, endless, slack] = LONG;
  const first = await thrown(() => worker.countAll(step, ["R q", endless], { ...slack, faults: "throw", signal: AbortSignal.timeout(4 * SOON) }));
  same("no line is searched after a fault", first, ["NissyFault", "line 1, column 3: not a move"]);
}

/** The best continuations, with their progress, as the engine itself finds them; and given up. */
async function tryBest(worker) {
  const nissy = await Nissy.load(moduleBytes);
  const scramble = nissy.scramble(20261127, 1, 25);
  const told = [];
  const rows = await worker.best(scramble, { soFar: "R (U)", slack: 1, most: 5, onProgress: (done, all) => told.push([done, all]) });
  same("the best", rows, nissy.best(scramble, { soFar: "R (U)", slack: 1, most: 5 }));
  same("their progress", [told[0][0], told[told.length - 1][0] === told[told.length - 1][1], told.length > 2], [0, true, true]);
  const enough = () => {
    throw new RangeError("enough");
  };
  same("what the caller throws", await thrown(() => worker.best(scramble, { onProgress: enough })), ["RangeError", "enough"]);
  const stop = new AbortController();
  const onProgress = () => stop.abort(new RangeError("no more"));
  same("given up", await thrown(() => worker.best(scramble, { slack: 3, signal: stop.signal, onProgress })), ["RangeError", "no more"]);
  same("a call after these", await isRight(worker), true);
}

/** Workers that can't be started, or have another module. */
async function tryUnstarted() {
  const empty = Uint8Array.of(0, 0x61, 0x73, 0x6d, 1, 0, 0, 0);
  same("another module", await thrown(() => NissyWorker.start(empty)), ["EngineMissing", "this is another module than nissy.wasm"]);
  same("bytes that are no module", (await thrown(() => NissyWorker.start(moduleBytes.subarray(1))))[0], "CompileError");
  same("no module beside the file", (await thrown(() => NissyWorker.start()))[0], "Error");
  same("nor for the engine itself", (await thrown(() => loadNissy()))[0], "Error");
}

/** Workers that keep what they are sent, and answer as a trial says. */
function puppets() {
  const all = [];
  const started = (took, failed) => {
    const puppet = { sent: [], isEnded: false, took, failed, postMessage: (message) => puppet.sent.push(message) };
    puppet.terminate = () => {
      puppet.isEnded = true;
    };
    all.push(puppet);
    return puppet;
  };
  return { all, started };
}

/** Workers that fail, and messages that come late or twice. */
async function tryPuppets() {
  const { all, started } = puppets();
  const calls = new WorkerCalls(moduleBytes, started);
  const inverse = (moves) => ({ status: 0, out: moves });
  same("no worker before a call", all.length, 0);
  const [first, second] = [thrown(() => calls.invert("R")), thrown(() => calls.invert("U"))];
  same("the module goes first, and one call after it", all[0].sent.map(Object.keys), [["module"], ["id", "request"]]);
  all[0].failed("no script");
  same("a worker that fails refuses the call", await first, ["EngineMissing", "no script"]);
  same("and those that wait", await second, ["EngineMissing", "no script"]);
  same("it is ended", all[0].isEnded, true);
  const stop = new AbortController();
  const third = thrown(() => calls.invert("F", { signal: stop.signal }));
  const fourth = calls.invert("D");
  stop.abort();
  same("a call that ran is given up", (await third)[0], "AbortError");
  same("its worker is ended, and another one has the next call", [all.length, all[1].isEnded, all[2].sent[1].request.line], [3, true, "D"]);
  const { id } = all[2].sent[1];
  all[1].took({ id, reply: inverse("too late") });
  all[1].failed("too late");
  all[2].took({ id: id - 1, reply: inverse("another") });
  all[2].took({ id, reply: inverse("D'") });
  all[2].took({ id, reply: inverse("twice") });
  same("only its own answer is taken", await fourth, "D'");
  const fifth = thrown(() => calls.invert("L"));
  all[2].took({ id: id + 1, error: { name: "RangeError", message: "no memory" } });
  same("what it throws", await fifth, ["RangeError", "no memory"]);
  const unstarted = new WorkerCalls(moduleBytes, () => {
    throw new Error("no workers here");
  });
  same("no worker can be made", await thrown(() => unstarted.invert("R")), ["EngineMissing", "no workers here"]);
}

/** A signal gives up all of its calls before another one runs: no worker is started for one of them. */
async function tryGivenUpAtOnce() {
  const { all, started } = puppets();
  const calls = new WorkerCalls(moduleBytes, started);
  const stop = new AbortController();
  const given = ["R", "U", "F"].map((line) => thrown(() => calls.invert(line, { signal: stop.signal })));
  const kept = calls.invert("D");
  stop.abort();
  same("each call of the signal", (await Promise.all(given)).map(([name]) => name), ["AbortError", "AbortError", "AbortError"]);
  same("one more worker, for the call that is left", [all.length, all[0].isEnded, all[1].sent[1].request.line], [2, true, "D"]);
  all[1].took({ id: all[1].sent[1].id, reply: { status: 0, out: "D'" } });
  same("which is answered", await kept, "D'");
}

const worker = await NissyWorker.start(WebAssembly.compile(moduleBytes));
await tryRows(worker);
await tryWrongValues(worker);
await tryManyLines(worker);
await tryEach(worker);
await tryOptions(worker);
await tryLists(worker);
await tryReadOptions(worker);
await tryOwnOptions(worker);
await tryNoOptions(worker);
await tryMany(worker);
for (const judge of [tryChecks, tryAttempts, tryPairs, tryBounds, tryMixed]) await judge(worker);
await tryBest(worker);
await tryStopped(worker);
await trySignals(worker);
await tryOneSignal(worker);
await tryAllAtOnce(worker);
await tryUnstarted();
await tryPuppets();
await tryGivenUpAtOnce();
// the process ends though the worker lives
ended();
