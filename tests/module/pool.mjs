// Engines in several threads that share many lines: 40,000 of them beside one engine, in order; their faults, their progress, what gives
// them up, and threads that end. Calls on one line, as an engine has them.
//
//     node tests/module/pool.mjs MODULE
//
// The last line is `N passed, M failed`, and the status is 1 where M isn't 0.
import { execFileSync } from "node:child_process";
import { getEventListeners } from "node:events";
import { mkdtempSync, rmSync, writeFileSync } from "node:fs";
import { tmpdir } from "node:os";
import { join } from "node:path";
import { performance } from "node:perf_hooks";
import { NissyPool, NissyWorker } from "../../build/web/module/node.js";
import { Nissy } from "../../build/web/module/nissy.js";
import { WorkerPool } from "../../build/web/module/workers/pool.js";
import { WorkerCalls } from "../../build/web/module/workers/later-calls.js";
import { tryEach, tryLists, tryOptions, tryReadOptions, tryRows, tryTooLong, tryWrongValues } from "./called.mjs";
import { tryAttempts, tryBounds, tryChecks, tryMixed, tryPairs } from "./judged.mjs";
import { TURNS, drawn, ended, moduleBytes, same, thrown } from "./tally.mjs";

const LINES = 40_000;
const ENDLESS = "R U F2 L D R B";
const LONG = { slack: 14 };
const SOON = 30_000;
const nissy = await Nissy.load(moduleBytes);

/** Short lines, of which some in a hundred can't be read. */
const drawnLines = (count) => Array.from({ length: count }, () => {
  const turns = Array.from({ length: drawn(8) }, () => TURNS[drawn(18)]);
  return drawn(100) === 0 ? [...turns, "q"].join(" ") : turns.join(" ");
});

/** What a value is, a fault too. */
const plain = (told) => (told instanceof Error ? [told.name, told.message, told.line, told.column] : told);

/** Which of two lists differ at the first place, if they do. */
function differing(one, other) {
  const at = one.findIndex((each, index) => JSON.stringify(plain(each)) !== JSON.stringify(plain(other[index])));
  return at < 0 && one.length === other.length ? "nowhere" : [at, plain(one[at]), plain(other[at])];
}

/** Many lines as one engine has them, with the progress. */
async function tryMany(pool, lines) {
  const told = [];
  const onProgress = (done, all) => told.push([done, all]);
  same("facts of many lines", differing(await pool.factsAll(lines, { onProgress }), nissy.factsAll(lines)), "nowhere");
  same("the progress begins with none of all", told[0], [0, lines.length]);
  same("it goes on", told.every(([done], at) => at === 0 || done > told[at - 1][0]), true);
  same("up to all", told[told.length - 1], [lines.length, lines.length]);
  same("which is said each time", new Set(told.map(([, all]) => all)), new Set([lines.length]));
  const counts = await pool.countAll("eofb", lines, { slack: 1, onProgress: () => {} });
  same("counts of many lines", differing(counts, nissy.countAll("eofb", lines, { slack: 1 })), "nowhere");
  const some = lines.slice(0, 5_000);
  const found = await pool.solveAll("eo", some, { most: 2 });
  same("solutions of many lines", differing(found, nissy.solveAll("eo", some, { most: 2 })), "nowhere");
  const bytes = some.map((line, at) => (at % 2 === 0 ? new TextEncoder().encode(line) : line));
  same("of bytes", differing(await pool.factsAll(bytes), nissy.factsAll(bytes)), "nowhere");
}

/** Faults as one engine has them, wherever they stand. */
async function tryFaults(pool) {
  const good = Array.from({ length: 3_000 }, () => "R U");
  for (const places of [[0], [2_999], [1_500, 2_999], [255, 256], [256], [1_023]]) {
    const lines = good.map((line, at) => (places.includes(at) ? "R q" : line));
    const message = `line ${places[0] + 1}, column 3: not a move`;
    same(`the first fault of ${places}`, await thrown(() => pool.factsAll(lines, { faults: "throw" })), ["NissyFault", message]);
  }
  same("a step that can't begin", await thrown(() => pool.countAll("dr-eofb", ["", "R", "F"], { faults: "throw" })), ["NissyFault", "line 3: eofb does not hold"]);
  const cut = { nodes: 10 };
  const isCut = (engine) => thrown(() => engine.countAll("eofb", ["", ENDLESS], cut));
  same("a search that is cut", await isCut(pool), await isCut(nissy));
  const values = await pool.countAll("eofb", ["", ENDLESS], { ...cut, cut: "value" });
  same("or told", values.map((each) => each.cut), [undefined, true]);
  const begun = performance.now();
  const endless = Array.from({ length: 12 }, () => ENDLESS);
  same("lines after a fault aren't waited for", await thrown(() => pool.countAll("eo", ["q", ...endless], { ...LONG, faults: "throw" })), ["NissyFault", "line 1, column 1: not a move"]);
  same("so it is told soon", performance.now() - begun < SOON, true);
}

/** Values that no call takes. */
async function tryWrong(pool) {
  for (const wrong of [0, -1, 1.5, 1_025, Number.NaN]) same(`${wrong} workers`, (await thrown(() => NissyPool.start(wrong, moduleBytes)))[0], "RangeError");
  for (const wrong of ["2", null, undefined, 2n]) same(`${String(wrong)} workers`, (await thrown(() => NissyPool.start(wrong, moduleBytes)))[0], "TypeError");
  same("no array", await thrown(() => pool.factsAll("R")), ["TypeError", "the lines are no array"]);
  same("a line of another type", await thrown(() => pool.countAll("eofb", ["R", 3])), ["TypeError", "line 2 is neither a string nor a Uint8Array"]);
  same("no step", await thrown(() => pool.countAll("htr", [])), ["RangeError", 'there is no step of the name "htr"']);
  same("no options", await thrown(() => pool.factsAll(["R"], null)), ["TypeError", "the options are no object"]);
  same("no function", (await thrown(() => pool.factsAll(["R"], { onProgress: 3 })))[0], "TypeError");
  same("no signal", await thrown(() => pool.factsAll(["R"], { signal: {} })), ["TypeError", "the signal is no AbortSignal"]);
  same("no lines", [await pool.factsAll([]), await pool.solveAll("eofb", [])], [[], []]);
  const enough = () => {
    throw new RangeError("enough");
  };
  same("what the caller throws", await thrown(() => pool.factsAll(["R", "U"], { onProgress: enough })), ["RangeError", "enough"]);
  same("a call after these", (await pool.countAll("eofb", ["F"]))[0].length, 1);
}

/** Calls on one line have what `Nissy` has, and are given up by a signal. */
async function trySingle(pool) {
  const parts = [tryRows, tryEach, tryTooLong, tryWrongValues, tryLists, tryOptions, tryReadOptions, tryChecks, tryAttempts, tryPairs, tryBounds, tryMixed];
  for (const part of parts) await part(pool);
  const line = "R U2 R'";
  same("facts of a line", await pool.facts(line), nissy.facts(line));
  same("a check", await pool.check(line, "R U2"), nissy.check(line, "R U2"));
  const ended = thrown(() => pool.count("eo", ENDLESS, { ...LONG, signal: AbortSignal.timeout(50) }));
  same("others go on meanwhile", await Promise.all([pool.invert("R"), pool.facelets("R")]), ["R'", nissy.facelets("R")]);
  same("a call with its signal", (await ended)[0], "TimeoutError");
  const stopped = thrown(() => pool.solve("eo", ENDLESS, LONG));
  pool.stop();
  same("a call by stop", await stopped, ["AbortError", "stopped"]);
}

/** Workers that keep what they are sent. */
function keeping(count) {
  const workers = [];
  const pool = new WorkerPool(count, moduleBytes, (took) => {
    const worker = { sent: [], answer: (reply) => took({ id: worker.sent.shift().id, reply }) };
    workers.push(worker);
    return { postMessage: (message) => "module" in message || worker.sent.push(message), terminate: () => {} };
  });
  return { pool, workers, sent: () => workers.map((worker) => worker.sent.map(({ request }) => request.line)) };
}

/** Calls on one line go to the first worker that has none, in their order. */
async function tryIdlest() {
  const { pool, workers, sent } = keeping(2);
  const calls = ["R", "U", "F", "L", "B"].map((line) => pool.invert(line));
  same("each worker has one", sent(), [["R"], ["U"]]);
  workers[1].answer({ status: 0, out: "U'" });
  await calls[1];
  same("then the first that waits", sent(), [["R"], ["F"]]);
  workers[1].answer({ status: 0, out: "F'" });
  await calls[2];
  same("then the next one", sent(), [["R"], ["L"]]);
  workers[1].answer({ status: 0, out: "L'" });
  await calls[3];
  same("one after another", sent(), [["R"], ["B"]]);
  const controller = new AbortController();
  const late = pool.invert("D", { signal: controller.signal });
  same("it waits", sent(), [["R"], ["B"]]);
  workers[1].answer({ status: 0, out: "B'" });
  await calls[4];
  same("until one has none", sent(), [["R"], ["D"]]);
  controller.abort();
  same("it is given up there", await thrown(() => late), ["AbortError", "This operation was aborted"]);
  const last = pool.invert("D2");
  same("by an end of that worker", sent(), [["R"], ["D"], ["D2"]]);
  workers[0].answer({ status: 0, out: "R'" });
  workers[2].answer({ status: 0, out: "D2" });
  same("each has its answer", await Promise.all([...calls, last]), ["R'", "U'", "F'", "L'", "B'", "D2"]);
  const [running, waiting] = [[pool.invert("F2"), pool.invert("B2")], thrown(() => pool.invert("L2"))];
  pool.drop();
  same("what waits is dropped", await waiting, ["AbortError", "stopped"]);
  for (const [worker, line] of [[workers[0], "F2"], [workers[2], "B2"]]) worker.answer({ status: 0, out: line });
  same("what runs goes on", await Promise.all(running), ["F2", "B2"]);
}

/** A promise of the caller's `onProgress` is waited for, and one that rejects ends the call. */
async function tryPromises(pool) {
  const unheard = [];
  const hear = (reason) => unheard.push(reason.message);
  process.on("unhandledRejection", hear);
  const scramble = nissy.scramble(20261127, 1, 25);
  const worker = await NissyWorker.start(moduleBytes);
  const lines = Array.from({ length: 200 }, () => "R U F");
  for (const [what, call] of [
    ["lines", (onProgress) => pool.countAll("eofb", lines, { onProgress })],
    ["the best", (onProgress) => pool.best(scramble, { onProgress })],
    ["the best of one worker", (onProgress) => worker.best(scramble, { onProgress })],
  ]) {
    const late = new Promise((done) => setTimeout(done, 30));
    const enough = async () => {
      throw new RangeError("enough");
    };
    same(`${what}: what is rejected at once`, await thrown(() => call(enough)), ["RangeError", "enough"]);
    same(`${what}: at the end`, await thrown(() => call((done, all) => (done === all ? late.then(enough) : null))), ["RangeError", "enough"]);
    const [told, heard] = [[], []];
    await call(async (done) => {
      told.push(done);
      await late;
      await new Promise((next) => setTimeout(next, 20));
      heard.push(done);
    });
    same(`${what}: all is heard before the call ends`, [heard, told.length > 1], [told, true]);
  }
  worker.end();
  await new Promise((done) => setTimeout(done, 20));
  process.off("unhandledRejection", hear);
  same("nothing is rejected that nobody hears", unheard, []);
}

/** Calls that are given up, each with what it rejects with. */
async function tryGivenUp(pool) {
  const lines = Array.from({ length: 40 }, () => ENDLESS);
  const long = (options) => thrown(() => pool.countAll("eo", lines, { ...LONG, ...options }));
  const reason = new RangeError("no more");
  const stop = new AbortController();
  const given = long({ signal: stop.signal });
  const other = pool.factsAll(["R", "U"]);
  setTimeout(() => stop.abort(reason), 50);
  same("by its signal", await given, ["RangeError", "no more"]);
  same("another call of the pool goes on", (await other).length, 2);
  same("nothing listens to the signal", getEventListeners(stop.signal, "abort").length, 0);
  same("a signal that was given before", await long({ signal: AbortSignal.abort(reason) }), ["RangeError", "no more"]);
  for (const how of ["stop", "end"]) {
    const calls = [long({}), long({})];
    await new Promise((done) => setTimeout(done, 50));
    pool[how]();
    same(`by ${how}`, await Promise.all(calls), [["AbortError", "stopped"], ["AbortError", "stopped"]]);
    same(`a call after ${how}`, (await pool.countAll("eofb", ["F", "R"])).map(({ length }) => length), [1, 0]);
  }
}

/** What a worker says of a request if each line has a fault, and how long that took. */
const faulty = ({ id, request }, milliseconds) =>
  ({ id, reply: { values: null, others: request.lines.map((_, at) => [at, { status: 1, fault: 1, column: 1, character: 1, text: "here" }]), milliseconds } });

/** Threads that fail: what they had is rejected, and the next call starts others. */
async function tryDead() {
  let left = 2;
  const fails = (took, failed) => {
    const isDead = left > 0;
    left -= 1;
    return {
      postMessage: (message) => {
        if ("module" in message) return;
        setTimeout(() => (isDead ? failed("it has ended") : took(faulty(message, 1))));
      },
      terminate: () => {},
    };
  };
  const pool = new WorkerPool(2, moduleBytes, fails);
  same("a worker that ends", await thrown(() => pool.factsAll(["R", "U", "F"])), ["EngineMissing", "it has ended"]);
  const next = await pool.factsAll(["R", "U"]);
  same("the next call", next.map(({ text }) => text), ["here", "here"]);
}

/** Workers that answer at once, in place of threads. */
const quick = (took) => ({
  postMessage: (message) => "module" in message || setImmediate(() => took(faulty(message, 1))),
  terminate: () => {},
});

/** Node has nothing to say of many workers that share a call, nor of many that have one signal of their caller. */
async function tryManyWorkers() {
  const said = [];
  const hear = ({ message }) => said.push(message);
  process.on("warning", hear);
  const pool = new WorkerPool(40, moduleBytes, quick);
  const lines = Array.from({ length: LINES }, () => "R");
  same("forty workers share a call", (await pool.factsAll(lines)).length, LINES);
  const stop = new AbortController();
  const { signal } = stop;
  const calls = Array.from({ length: 40 }, () => new WorkerCalls(moduleBytes, quick));
  const given = calls.map((each) => thrown(() => each.factsAll(lines, { signal })));
  same("one listens for forty of them", getEventListeners(signal, "abort").length, 1);
  stop.abort(new RangeError("no more"));
  same("each hears it", await Promise.all(given), Array.from({ length: 40 }, () => ["RangeError", "no more"]));
  same("nobody listens then", getEventListeners(signal, "abort").length, 0);
  await new Promise((done) => setImmediate(done));
  process.off("warning", hear);
  same("node warns of nothing", said, []);
}

/** A worker has a second piece of the same call while it works on a quick one, and none after a slow one. */
async function tryAhead() {
  const workers = [];
  const pool = new WorkerPool(1, moduleBytes, (took) => {
    const worker = { sent: [], isEnded: false, answer: (milliseconds) => took(faulty(worker.sent.shift(), milliseconds)) };
    workers.push(worker);
    return {
      postMessage: (message) => "module" in message || worker.sent.push(message),
      terminate: () => {
        worker.isEnded = true;
      },
    };
  });
  const stop = new AbortController();
  const given = thrown(() => pool.factsAll(Array.from({ length: LINES }, () => "R"), { signal: stop.signal }));
  const has = async () => {
    await new Promise((done) => setImmediate(done));
    return workers[0].sent.length;
  };
  same("a piece of which nothing is known is alone", await has(), 1);
  for (const [milliseconds, wanted] of [[1, 2], [1, 2], [100, 1], [100, 1], [1, 2]]) {
    workers[0].answer(milliseconds);
    same(`so many after one of ${milliseconds} ms`, await has(), wanted);
  }
  const other = pool.factsAll(["D"]);
  workers[0].answer(1);
  same("one of another call isn't sent before the last one is answered", [await has(), workers[0].sent[0].request.lines[0]], [1, "R"]);
  workers[0].answer(1);
  same("then it is, alone", [await has(), workers[0].sent[0].request.lines], [1, ["D"]]);
  workers[0].answer(1);
  same("it has its answer", (await other).map(({ text }) => text), ["here"]);
  workers[0].answer(1);
  same("two again", await has(), 2);
  const later = pool.factsAll(["U"]);
  stop.abort(new RangeError("no more"));
  same("both are given up", await given, ["RangeError", "no more"]);
  await has();
  same("by the end of their worker", workers.map(({ isEnded }) => isEnded), [true, false]);
  workers[1].answer(1);
  same("another one has what waited", (await later).map(({ text }) => text), ["here"]);
  const first = thrown(() => pool.factsAll(Array.from({ length: LINES }, () => "R"), { faults: "throw" }));
  await has();
  workers[1].answer(1);
  same("a fault in the first piece", await first, ["NissyFault", "line 1, column 1: here"]);
  same("ends no worker: nothing is sent after it", [workers[1].sent.length, ...workers.map(({ isEnded }) => isEnded)], [0, true, false]);
}

/** The best continuations, an axis a worker. */
async function tryBest(pool) {
  const scramble = nissy.scramble(20261127, 1, 25);
  for (const [soFar, slack] of [["", 0], ["R (U)", 0], ["", 1], [nissy.solve("eorl", scramble, { most: 1 })[0].moves, 1]]) {
    const told = [];
    const rows = await pool.best(scramble, { soFar, slack, onProgress: (done, all) => told.push([done, all]) });
    // each axis looks by itself, so the looks are others
    same(`the best of ${soFar}, slack ${slack}`, [...rows], [...nissy.best(scramble, { soFar, slack })]);
    same("up to all", told[told.length - 1][0], told[told.length - 1][1]);
  }
  same("a fault", await thrown(() => pool.best("R", { soFar: "q" })), ["NissyFault", "moves so far, column 1: not a move"]);
  same("the best that are given up", await thrown(() => pool.best(scramble, { slack: 3, signal: AbortSignal.timeout(20) })), ["TimeoutError", "The operation was aborted due to timeout"]);
}

/** A process ends by itself once nothing is asked any more. */
function tryEnd() {
  const folder = mkdtempSync(join(tmpdir(), "nissy-pool-"));
  const script = join(folder, "script.mjs");
  writeFileSync(script, `import { readFileSync } from "node:fs";
    import { NissyPool } from ${JSON.stringify(new URL("../../build/web/module/node.js", import.meta.url).href)};
    const pool = await NissyPool.start(3, readFileSync(process.argv[2]));
    console.log((await pool.countAll("eofb", Array.from({ length: 50_000 }, () => "R U F"))).length, pool.size);`);
  const said = String(execFileSync(process.execPath, [script, process.argv[2]], { timeout: 2 * SOON }));
  rmSync(folder, { recursive: true });
  same("a process ends by itself", said, "50000 3\n");
}

const pool = await NissyPool.start(3, moduleBytes);
await tryMany(pool, drawnLines(LINES));
await tryFaults(pool);
await tryWrong(pool);
await tryGivenUp(pool);
await tryBest(pool);
await trySingle(pool);
await tryIdlest();
await tryPromises(pool);
await tryDead();
await tryManyWorkers();
await tryAhead();
const alone = await NissyPool.start(1, moduleBytes);
await tryFaults(alone);
await tryBest(alone);
alone.end();
tryEnd();
pool.end();
ended();
