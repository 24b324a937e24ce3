// Tries the package in a page without a bundler: the engine itself, one in a worker, and several. What was seen is left beside what is wanted.
import { Nissy, NissyFault, NissyPool, NissyWorker } from "./node_modules/nissy/browser.js";

const WASM = "node_modules/nissy/nissy.wasm";
const seen = [];
const same = (what, got, wanted) => seen.push([what, JSON.stringify(got), JSON.stringify(wanted)]);
const refusalOf = (call) => call.then(() => "none", (fault) => [fault instanceof NissyFault, fault.name, fault.message]);

async function tryCalls(nissy) {
  same("an inverse", await nissy.invert("R U' F2"), "F2 U R'");
  same("solutions", await nissy.solve("drud-eofb", "R U", { most: 1 }), [{ moves: "U' R", length: 2 }]);
  same("counts", (await nissy.countAll("eofb", ["F", "", "R U F"])).map(({ length, nodes }) => [length, nodes]), [[1, 20], [0, 1], [1, 20]]);
  same("a fault", await refusalOf(Promise.resolve().then(() => nissy.invert("R q"))), [true, "NissyFault", "column 3: not a move"]);
}

async function tryWorker() {
  const worker = await NissyWorker.start(await WebAssembly.compile(await (await fetch(WASM)).arrayBuffer()));
  await tryCalls(worker);
  const stop = new AbortController();
  const running = refusalOf(worker.count("eo", "R U F2 L D R B", { slack: 14, signal: stop.signal }));
  const waiting = worker.invert("R U");
  setTimeout(() => stop.abort(), 100);
  same("a search that is stopped, and a call that waited", [(await running).slice(0, 2), await waiting], [[false, "AbortError"], "U' R'"]);
  await tryCalls(worker);
  worker.end();
}

async function tryPool() {
  const pool = await NissyPool.start(3, fetch(WASM));
  const lines = Array.from({ length: 5_000 }, (_, at) => (at % 2 === 0 ? "R U F" : "R q"));
  const told = [];
  const counts = await pool.countAll("eofb", lines, { onProgress: (done) => told.push(done) });
  const isRight = (each, at) => (at % 2 === 0 ? each.length === 1 : each.column === 3 && each.line === at + 1);
  same("counts by several workers", [counts.length, counts.every(isRight), told[told.length - 1]], [5_000, true, 5_000]);
  same("the best by several workers", (await pool.best("R U", { most: 1 })).map(({ line, total }) => [line, total]), [["(R)", 1]]);
  pool.end();
}

try {
  await tryCalls(await Nissy.load(fetch(WASM)));
  const missing = await refusalOf(Nissy.load(fetch("none.wasm")));
  same("a module that isn't there", missing, [false, "Error", "the module can't be had: the request was answered by status 404"]);
  await tryWorker();
  await tryPool();
} catch (fault) {
  same("all is tried", String(fault), "");
}
window.seen = seen;
