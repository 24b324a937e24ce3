// The calls of `Nissy` by their names, with what is wanted, and with values and sizes that no call takes.
import { runInContext } from "node:vm";
import { readFileSync } from "node:fs";
import { Nissy, VERSION } from "../../build/web/module/nissy.js";
import { tryTraps } from "./broken_off.mjs";
import { F_OR_ITS_INVERSE, tryEach, tryLists, tryMany, tryOptions, tryReadOptions, tryRows, tryTooLong, tryWrongValues } from "./called.mjs";
import { tryAttempts, tryBounds, tryChecks, tryMixed, tryPairs } from "./judged.mjs";
import { elsewhere } from "./values.mjs";
import { ended, loaded, moduleBytes, same, text, thrown } from "./tally.mjs";

const LONGEST_LINE = 16_777_216;

/** Numbers out of range, of a search. */
async function tryRanges(nissy) {
  const wrong = [-1, 21, 0.5, Number.NaN, Infinity, -Infinity, 256, 2 ** 32, 2 ** 53];
  for (const number of wrong) {
    same(`a search with a limit of ${number}`, (await thrown(() => nissy.solve("eofb", "F", { limit: number })))[0], "RangeError");
    same(`a count with a slack of ${number}`, (await thrown(() => nissy.count("eofb", "F", { slack: number })))[0], "RangeError");
  }
  for (const most of [-1, 0.5, Number.NaN, -Infinity, 2 ** 53]) {
    same(`${most} solutions at most`, (await thrown(() => nissy.solve("eofb", "F", { most })))[0], "RangeError");
  }
}

/** Numbers out of range, of scrambles, and the most of them. */
async function tryScrambles(nissy) {
  for (const seed of [-1, 0.5, Number.NaN, Infinity, 2 ** 53, -1n, 2n ** 64n]) {
    same(`a state of ${seed}`, (await thrown(() => nissy.scramble(seed, 1, 20)))[0], "RangeError");
    same(`scrambles by a stream of ${seed}`, (await thrown(() => nissy.scrambles(1, seed, 20, 1)))[0], "RangeError");
  }
  for (const length of [-1, 0.5, 257, 2 ** 32, Number.NaN]) {
    same(`a scramble of ${length} turns`, (await thrown(() => nissy.scramble(1, 1, length)))[0], "RangeError");
    same(`scrambles of ${length} turns`, (await thrown(() => nissy.scrambles(1, 1, length, 1)))[0], "RangeError");
  }
  for (const count of [-1, 0.5, 10_001, 2 ** 32, Number.NaN]) {
    same(`${count} scrambles`, (await thrown(() => nissy.scrambles(1, 1, 1, count)))[0], "RangeError");
  }
  const most = nissy.scrambles(2n ** 64n - 1n, 2n ** 64n - 1n, 256, 10_000);
  same("the most scrambles", [most.length, ...new Set(most.map((line) => line.split(" ").length))], [10_000, 256]);
  same("scramble gives the first of them", nissy.scramble(2n ** 64n - 1n, 2n ** 64n - 1n, 256), most[0]);
}

/** Names that are no step's, and a line of more bytes than any that is read. */
async function tryBeyond(nissy, memory) {
  const size = memory.buffer.byteLength;
  for (const step of ["", "EOFB", "eofb ", "eofb\0", "eox", "e".repeat(1_000_000), "\u0435ofb"]) {
    same(`no step ${step.slice(0, 10)}`, (await thrown(() => nissy.solve(step, "F")))[0], "RangeError");
  }
  for (const [call, ...given] of [["invert"], ["solve", "eofb"], ["count", "eofb"]]) {
    for (const beyond of [" ".repeat(LONGEST_LINE + 1), `\u00a0${" ".repeat(LONGEST_LINE - 1)}`, new Uint8Array(8 * LONGEST_LINE)]) {
      const refused = await thrown(() => nissy[call](...given, beyond));
      same(`${call} of a line of more bytes`, refused, ["RangeError", "the line has more bytes than the engine reads"]);
    }
  }
  await tryTooLong(nissy);
  same("they take no memory of the module", memory.buffer.byteLength, size);
  same("a call after these", nissy.solve("eofb", "F"), F_OR_ITS_INVERSE);
}

/** More solutions than have room at first: as `run` says them. */
function tryManySolutions(nissy) {
  const lines = text(nissy.run(["near", "eo", "20", "4"], "R U F2 L D R B\n").out).split("\n").slice(0, -2);
  const wanted = lines.map((each) => /^(.*?) ?\((\d+)\)$/.exec(each)).map(([, moves, length]) => ({ moves, length: Number(length) }));
  same("more solutions than have room at first", nissy.solve("eo", "R U F2 L D R B", { slack: 4 }), wanted);
  same("the first thousand of them", nissy.solve("eo", "R U F2 L D R B", { slack: 4, most: 1000 }), wanted.slice(0, 1000));
}

/** What the module may be had from. */
async function trySources() {
  const bytes = new Uint8Array(moduleBytes);
  const compiled = await WebAssembly.compile(bytes);
  const response = (status) => new Response(status === 200 ? bytes : "none", { status, headers: { "Content-Type": "application/wasm" } });
  const shared = new Uint8Array(new SharedArrayBuffer(bytes.length));
  shared.set(bytes);
  for (const [what, source] of [
    ["bytes", bytes],
    ["shared bytes", shared],
    ["a buffer", bytes.buffer],
    ["a compiled module", compiled],
    ["a compiled module of another realm", new (runInContext("WebAssembly.Module", elsewhere))(bytes)],
    ["a response", response(200)],
    ["a promise of a response", Promise.resolve(response(200))],
    ["a response of another type", new Response(bytes)],
  ]) {
    same(`the module from ${what}`, (await Nissy.load(source)).invert("R U"), "U' R'");
  }
  const missing = ["Error", "the module can't be had: the request was answered by status 404"];
  same("a response that has none", await thrown(() => Nissy.load(response(404))), missing);
  same("a promise that is broken", await thrown(() => Nissy.load(Promise.reject(new Error("no network")))), ["Error", "no network"]);
  const [posing, kind] = [{ [Symbol.toStringTag]: "WebAssembly.Module" }, { [Symbol.toStringTag]: "Response" }];
  same("what says that it is a module", (await thrown(() => Nissy.load(posing)))[0], "TypeError");
  same("what says that it is a response", (await thrown(() => Nissy.load(kind)))[0], "Error");
  for (const source of [undefined, null, "nissy.wasm", 1, {}, [], new URL("file:///nissy.wasm"), Uint16Array.of(1), { length: 8 }]) {
    const wanted = ["TypeError", "the module is neither bytes nor a WebAssembly.Module nor a Response"];
    same(`no module: ${String(source)}`, await thrown(() => Nissy.load(source)), wanted);
  }
  const empty = Uint8Array.of(0, 0x61, 0x73, 0x6d, 1, 0, 0, 0);
  same("another module", await thrown(() => Nissy.load(empty)), ["TypeError", "this is another module than nissy.wasm"]);
}

/** Bytes of the module are taken before the call that is given them returns. */
async function tryTakenAtOnce() {
  const bytes = new Uint8Array(moduleBytes);
  const ofBytes = Nissy.load(bytes);
  bytes.fill(0);
  same("bytes that are others after the call", (await ofBytes).invert("R U"), "U' R'");
  const { buffer } = new Uint8Array(moduleBytes);
  const ofBuffer = Nissy.load(buffer);
  structuredClone(buffer, { transfer: [buffer] });
  same("a buffer that is handed on after the call", (await ofBuffer).invert("R U"), "U' R'");
}

const { nissy, memory } = await loaded(Nissy);
await tryRows(nissy);
await tryWrongValues(nissy, memory);
await tryOptions(nissy);
await tryLists(nissy);
await tryReadOptions(nissy, memory);
await tryMany(nissy);
await tryEach(nissy);
for (const judge of [tryChecks, tryAttempts, tryPairs, tryBounds, tryMixed]) await judge(nissy);
await tryRanges(nissy);
await tryScrambles(nissy);
await tryBeyond(nissy, memory);
same("the version is the package's", VERSION, JSON.parse(readFileSync(new URL("../../build/web/module/package.json", import.meta.url), "utf8")).version);
tryManySolutions(nissy);
await tryTraps(nissy);
await trySources();
await tryTakenAtOnce();
ended();
