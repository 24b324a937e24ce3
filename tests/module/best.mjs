// Tries `best`: rows beside those of the independent model, values that no call takes, its progress, and its bound in workers and pools. That its
// rows are those of the other languages is tried by tests/hosts.
//
//     node tests/module/best.mjs MODULE
//
// The last line is `N passed, M failed`, and the status is 1 where M isn't 0.
import { readFileSync } from "node:fs";
import { NissyPool, NissyWorker } from "../../build/web/module/node.js";
import { Nissy, NissyFault, SearchCut } from "../../build/web/module/nissy.js";
import { ended, moduleBytes, same, thrown } from "./tally.mjs";

const nissy = await Nissy.load(moduleBytes);

/** What a call throws, or null. */
const caught = (call) => Promise.resolve().then(call).then(() => null, (error) => error);

/** Lines that can't be read, by an engine: which of the two has the fault, where, and what the message calls it. */
async function tryFaults(engine) {
  // more than may be made on a side after a scramble, and more than a line has together
  const many = "R U ".repeat(110);
  const faults = [
    ["R q", "", 1, 3, "not a move", "scramble, column 3: not a move"],
    ["R", "U (", 2, 3, "bracket not closed", "moves so far, column 3: bracket not closed"],
    ["q", "q", 1, 1, "not a move", "scramble, column 1: not a move"],
    [many, many, 2, null, "more than 256 moves", "moves so far, more than 256 moves"],
  ];
  for (const [scramble, soFar, ...wanted] of faults) {
    const [part] = wanted.at(-1).split(",");
    for (const call of [() => engine.best(scramble, { soFar }), () => engine.lineAfter(scramble, soFar)]) {
      const fault = await caught(call);
      same(`${scramble} / ${soFar}`, [fault?.name, fault?.line, fault?.column, fault?.text, fault?.message], ["NissyFault", ...wanted]);
      same(`the part of ${scramble} / ${soFar}`, [fault?.part, fault?.parts().part], [part, part]);
    }
  }
  const parts = [await caught(() => engine.check("R", "Q")), await caught(() => engine.check("Q", "R")), await caught(() => engine.invert("Q"))];
  same("the parts of other faults", parts.map(({ part }) => part), ["solution", "scramble", ""]);
}

/** What no call takes. */
async function tryWrong() {
  for (const wrong of [null, 1, {}, ["R"]]) {
    same(`a scramble of another type: ${wrong}`, (await thrown(() => nissy.best(wrong)))[0], "TypeError");
    same(`moves of another type: ${wrong}`, (await thrown(() => nissy.best("R", { soFar: wrong })))[0], "TypeError");
    same(`a line after ${wrong}`, (await thrown(() => nissy.lineAfter(wrong)))[0], "TypeError");
    same(`a line after moves of another type: ${wrong}`, (await thrown(() => nissy.lineAfter("R", wrong)))[0], "TypeError");
    same(`no function: ${wrong}`, (await thrown(() => nissy.best("R", { onProgress: wrong })))[0], "TypeError");
  }
  for (const wrong of [-1, 21, 0.5, Number.NaN]) same(`a slack of ${wrong}`, (await thrown(() => nissy.best("R", { slack: wrong })))[0], "RangeError");
  for (const wrong of [-1, 0.5, Number.NaN]) same(`${wrong} rows`, (await thrown(() => nissy.best("R", { most: wrong })))[0], "RangeError");
  for (const wrong of [-1, 0.5, Number.NaN, 2 ** 53]) same(`${wrong} nodes`, (await thrown(() => nissy.best("R", { nodes: wrong })))[0], "RangeError");
  for (const wrong of [null, "1", 1n]) same(`nodes of another type: ${wrong}`, (await thrown(() => nissy.best("R", { nodes: wrong })))[0], "TypeError");
  for (const wrong of [-1, 0.5, Number.NaN]) same(`${wrong} milliseconds`, (await thrown(() => nissy.best("R", { milliseconds: wrong })))[0], "RangeError");
  same("a time of another type", (await thrown(() => nissy.best("R", { milliseconds: "1" })))[0], "TypeError");
  same("no options", (await thrown(() => nissy.best("R", null)))[0], "TypeError");
  same("what the caller throws", await thrown(() => nissy.best("R U F2 L D", { onProgress: () => { throw new RangeError("enough"); } })), ["RangeError", "enough"]);
}

/** The rows that the independent model made of scrambles and moves so far, as C has them: `total length corners edges axis reduction`, and the
 * turns of both steps on both sides. */
function tryModel() {
  const ASKED = /\{"([^"]*)", "([^"]*)", (\d+), (\d+),\n((?:\s+"[^"]*"\n)+)\s*\}/g;
  const all = [...readFileSync(new URL("../library/ways.h", import.meta.url), "utf8").replaceAll('"},', '"\n},').matchAll(ASKED)];
  const rowOf = ({ total, eo, dr, case: of }) => {
    const first = eo ?? dr;
    const [corners, edges] = of.match(/\d+/g);
    const turns = [eo?.normal ?? "", eo?.inverse ?? "", dr.normal, dr.inverse].join(" | ");
    return [total, first.length, corners, edges, dr.step.slice(-2), dr.step.slice(2, 4), "|", turns].join(" ").trim();
  };
  for (const [, scramble, soFar, slack, most, text] of all) {
    const wanted = [...text.matchAll(/"([^"]*)\\n"/g)].map(([, row]) => row.trim());
    const rows = nissy.best(scramble, { soFar, slack: Number(slack), most: Number(most) });
    same(`${scramble} / ${soFar}, slack ${slack}: the model's rows`, rows.map(rowOf), wanted);
  }
  same("some questions of the model", all.length > 8, true);
}

/** More rows than there is room for at first come all, and those of fewer are their beginning. */
function tryMany() {
  const scramble = nissy.scramble(20261127, 1, 25);
  const all = nissy.best(scramble, { slack: 1, most: Infinity });
  let tried = 0;
  same("some of them", [...nissy.best(scramble, { slack: 1, most: 50, onProgress: (done) => { tried = done; } })], all.slice(0, 50));
  same("all of them", [all.length > 4_096, all.length], [true, tried]);
  same("none of them", [...nissy.best(scramble, { most: 0 })], []);
}

/** The same of many scrambles, with the faults in their places. */
async function tryAll() {
  const scrambles = ["R U F", "R q", nissy.scramble(20261127, 1, 25), ""];
  const wanted = scrambles.map((scramble) => (scramble === "R q" ? null : nissy.best(scramble, { most: 3 })));
  const [worker, pool] = [await NissyWorker.start(moduleBytes), await NissyPool.start(2, moduleBytes)];
  for (const engine of [nissy, worker, pool]) {
    const told = await engine.bestAll(scrambles, { most: 3 });
    same("each is that of its scramble", told.map((each) => (each instanceof NissyFault ? null : each)), wanted);
    same("the fault", [told[1].line, told[1].column], [2, 3]);
    same("thrown", await thrown(() => engine.bestAll(scrambles, { faults: "throw" })), ["NissyFault", "line 2, column 3: not a move"]);
    same("cut", await thrown(() => engine.bestAll(["R U F", "U R F"], { nodes: 10 })), ["SearchCut", "line 1: the search was cut after 10 nodes"]);
  }
  worker.end();
  pool.end();
}

/** The progress is told from none to all. */
function tryProgress(scramble) {
  const told = [];
  nissy.best(scramble, { slack: 1, onProgress: (done, all) => told.push([done, all]) });
  same("it begins with none", told[0], [0, null]);
  same("it never goes back", told.map(([done]) => done), told.map(([done]) => done).sort((one, other) => one - other));
  const [last, all] = told[told.length - 1];
  same("it ends with all", [last > 0, last], [true, all]);
  same("all isn't known before", told.slice(0, -1).every((each) => each[1] === null), true);
  // of the orientations of some lengths on three axes
  same("it is told often", told.length > 12, true);
}

/** A cut, and the rows and faults by a worker; bytes are read as text. */
async function tryCuts() {
  const [rows, worker] = [nissy.best("U R F"), await NissyWorker.start(moduleBytes)];
  await tryFaults(worker);
  const [cut, other] = [await caught(() => nissy.best("U R F", { nodes: 30 })), await caught(() => worker.best("U R F", { nodes: 30 }))];
  same("a cut", [cut instanceof SearchCut, cut.found, cut.line, cut.count.length, cut.count.nodes <= 30], [true, null, null, null, true]);
  same("a cut by a worker", [other instanceof SearchCut, other.message], [true, cut.message]);
  for (const nodes of [100_000, Number.MAX_SAFE_INTEGER, Infinity, undefined]) same(`${nodes} nodes`, await worker.best("U R F", { nodes }), rows);
  const half = rows.nodes >> 1;
  const some = [nissy.best("U R F", { nodes: half, cut: "value" }), await worker.best("U R F", { nodes: half, cut: "value" })];
  same("what is found until a cut, by a worker too", some[1], some[0]);
  same("it is told so", some.map((it) => [it.cut, Array.isArray(it), it.length < rows.length]), [[true, true, true], [true, true, true]]);
  same("all that is found isn't", [rows.cut, nissy.best("U R F", { nodes: rows.nodes, cut: "value" }).cut], [undefined, undefined]);
  same("one position less is too few", (await thrown(() => nissy.best("U R F", { nodes: rows.nodes - 1 })))[0], "SearchCut");
  for (const wrong of ["values", "", "Throw"]) same(`told by ${wrong}`, (await thrown(() => nissy.best("R", { cut: wrong })))[0], "RangeError");
  const own = () => nissy.count("eofb", "R U F", { nodes: 0 });
  same("a cut of the caller's own", (await caught(() => nissy.best("U R F", { nodes: 100, cut: "value", onProgress: own }))).count.nodes, 0);
  const bytes = (text) => new TextEncoder().encode(text);
  same("bytes are read as text", nissy.best(bytes("U R F"), { soFar: bytes("R (U)") }), nissy.best("U R F", { soFar: "R (U)" }));
  worker.end();
}

/** A search ends after a time, also in a worker, a pool and of many scrambles; one that has time enough doesn't. */
async function tryTime() {
  const rows = nissy.best("U R F");
  same("time enough", [nissy.best("U R F", { milliseconds: 3_600_000 }), nissy.best("U R F", { milliseconds: undefined })], [rows, rows]);
  same("no time", (await thrown(() => nissy.best("U R F", { milliseconds: 0 })))[0], "SearchCut");
  const none = nissy.best("U R F", { milliseconds: 0, cut: "value" });
  same("what is found in no time", [[...none], none.cut, none.nodes], [[], true, 0]);
  const waits = (milliseconds) => { for (const end = performance.now() + milliseconds; performance.now() < end;); };
  let told = 0;
  const some = nissy.best("U R F", { milliseconds: 60_000, nodes: rows.nodes, onProgress: () => { told += 1; } });
  same("a bound on both", some, rows);
  const early = nissy.best("U R F", { milliseconds: 1, cut: "value", onProgress: () => waits(2) });
  same("the time of who follows counts", [early.cut, early.nodes], [true, 0]);
  same("it is told of three axes at least", told > 3, true);
  const [worker, pool] = [await NissyWorker.start(moduleBytes), await NissyPool.start(2, moduleBytes)];
  for (const engine of [worker, pool]) {
    const cut = await engine.best("U R F", { milliseconds: 0, cut: "value" });
    same("no time elsewhere", [[...cut], cut.cut], [[], true]);
    same("time enough elsewhere", [...await engine.best("U R F", { milliseconds: 3_600_000 })], [...rows]);
    same("of many", (await engine.bestAll(["U R F", "q"], { milliseconds: 0, cut: "value" })).map((it) => it.cut ?? it.name), [true, "NissyFault"]);
    engine.end();
  }
}

/** In a pool each axis has the bound by itself, and all have it together. */
async function tryPoolBounds() {
  const [pool, rows] = [await NissyPool.start(2, moduleBytes), [...nissy.best("U R F")]];
  const least = (await pool.best("U R F")).nodes;
  same("rows by a pool", [...await pool.best("U R F", { nodes: least })], rows);
  const { count, found } = await caught(() => pool.best("U R F", { nodes: least - 1 }));
  same("all were looked at together", [count, found], [{ length: null, solutions: 0, nodes: least }, null]);
  const some = await pool.best("U R F", { nodes: least - 1, cut: "value" });
  // no axis alone was cut, but all together had looked at more
  same("what all found", [some.cut, [...some]], [true, rows]);
  const few = await pool.best("U R F", { nodes: least >> 2, cut: "value" });
  const places = few.map((row) => rows.findIndex((each) => JSON.stringify(each) === JSON.stringify(row)));
  same("what each found, as one list", [few.cut, places.includes(-1), places], [true, false, places.slice().sort((one, other) => one - other)]);
  // after x the face F is called U
  same("a line by a pool", [await pool.lineAfter("R x", "U"), await pool.lineAfter("R x")], ["R F", "R"]);
  same("a line that is given up", (await thrown(() => pool.lineAfter("R", "U", { signal: AbortSignal.abort() })))[0], "AbortError");
  await tryFaults(pool);
  same("a fault before a cut", (await caught(() => pool.best("R", { soFar: "q", nodes: 0 }))).line, 2);
  pool.end();
}

tryModel();
tryMany();
await tryAll();
await tryFaults(nissy);
await tryWrong();
tryProgress(nissy.scramble(20261127, 1, 25));
await tryCuts();
await tryTime();
await tryPoolBounds();
ended();
