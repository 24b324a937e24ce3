// Calls of the module in node, with the answers that are wanted.
import { runInContext } from "node:vm";
import { NoWebAssembly, Nissy } from "../../build/web/module/nissy.js";
import { ended, loaded, moduleBytes as module, same, text, thrown } from "./tally.mjs";
import { elsewhere } from "./values.mjs";

const SOLVED = "UUUUUUUUURRRRRRRRRFFFFFFFFFDDDDDDDDDLLLLLLLLLBBBBBBBBB\n";
const OUT_OF_ROOM = "nissy: cannot write\n";
const CALLS = 10_000;
const BYTES = [0x52, 0x20, 0x55];
const LINE_CALLS = ["invert", "unniss", "cleanup", "facelets", "scramble", "steps", "start", "fault_text"];
const JUDGING = ["facts", "check", "facts_lines", "count_lines", "best", "solve_sides", "line_after", "solving_part"];
const READING = ["plain", "text_lines", "text_moves", "known_lines", "check_attempts"];
const OTHERS = ["run", "build", "solve", "solve_after", "count"];
const EXPORTS = ["__heap_base", "memory", ...[...OTHERS, ...LINE_CALLS, ...JUDGING, ...READING].map((name) => `nissy_${name}`)].sort();

// what a row shows, the arguments of `run`, and what is wanted: the status, the output, the error text, and whether it was full
const ROWS = [
  ["input as bytes", [["unniss"], Uint8Array.of(0x52, 0xe2, 0x80, 0x99)], 0, "R'\n", "", false],
  ["words as bytes", [[Uint8Array.of(0x70, 0x72, 0x69, 0x6e, 0x74), ""]], 0, SOLVED, "", false],
  ["a string is UTF-8", [["unniss"], "U2\u2019 R"], 0, "U2 R\n", "", false],
  ["room for the output", [["solve", "eofb", "7"], "F", 14], 0, "F (1)\nF' (1)\n\n", "", false],
  ["a byte of room too few", [["solve", "eofb", "7"], "F", 13], 3, "F (1)\nF' (1)\n", OUT_OF_ROOM, true],
  ["no room", [["invert", "R"], "", 0], 3, "", OUT_OF_ROOM, true],
  ["an output that needs more room than there is at first", [["print"], "\n".repeat(50_000)], 0, SOLVED.repeat(50_000), "", false],
  ["the longest input", [["invert"], " ".repeat(16_777_215) + "R"], 0, "R'\n", "", false],
  ["a byte more", [["invert"], " ".repeat(16_777_216) + "R"], 3, "", "nissy: input longer than 16777216 bytes\n", false],
  ["words that need more memory than is lent at first", [["invert", " ".repeat(6_000_000) + "R"]], 0, "R'\n", "", false],
  ["the longest line in words, which a line feed ends", [["invert", " ".repeat(16_777_214) + "R"]], 0, "R'\n", "", false],
  ["a byte more in words", [["invert", " ".repeat(16_777_215) + "R"]], 3, "", "nissy: input longer than 16777216 bytes\n", false],
];

// bytes that are taken, and what the inverse of them is
const TAKEN = [
  ["bytes", Uint8Array.from(BYTES), "U' R'\n"],
  ["a part of bytes", Uint8Array.of(0x44, ...BYTES, 0x44).subarray(1, 4), "U' R'\n"],
  ["bytes of node", Buffer.from("R U"), "U' R'\n"],
  ["shared bytes", new Uint8Array(new SharedArrayBuffer(3)).fill(0x52, 0, 1).fill(0x20, 1), "R'\n"],
  ["bytes of another realm", runInContext("Uint8Array.of(0x52, 0x20, 0x55)", elsewhere), "U' R'\n"],
  ["bytes that say that they are more", Object.defineProperty(Uint8Array.from(BYTES), "length", { value: 50_000 }), "U' R'\n"],
  ["bytes that hand out others", Object.assign(Uint8Array.from(BYTES), { [Symbol.iterator]: () => [][Symbol.iterator]() }), "U' R'\n"],
];

function tryRows(nissy) {
  for (const [what, given, status, out, err, full] of ROWS) {
    const answer = nissy.run(...given);
    same(what, [answer.status, text(answer.out), text(answer.err), answer.full], [status, out, err, full]);
  }
  for (const [what, bytes, wanted] of TAKEN) {
    same(`${what} as the input`, text(nissy.run(["invert"], bytes).out), wanted);
    same(`${what} as a word`, text(nissy.run(["invert", bytes]).out), wanted);
  }
}

async function tryRefusals(nissy) {
  same("a word with a zero byte", await thrown(() => nissy.run(["invert", "R\0U"])), ["RangeError", "a word holds a zero byte"]);
  // some reach the end of what an address of the module can name, or would begin again at its start
  const far = [2 ** 32 - 1, 2 ** 32, 2 ** 32 + 64, 2 ** 33, 2 ** 40, 2 ** 45, 2 ** 50, 2 ** 53 - 1, 2 ** 53];
  for (const room of [-1, 1.5, Number.NaN, ...far]) {
    same(`a room of ${room} bytes`, (await thrown(() => nissy.run(["steps"], "", room)))[0], "RangeError");
  }
  for (const room of [null, "14", 14n, {}, [14], true]) {
    const refused = await thrown(() => nissy.run(["steps"], "", room));
    same(`no room, but ${typeof room}`, refused, ["TypeError", "the room is no number"]);
  }
  same("a run after these", text(nissy.run(["invert", "R"]).out), "R'\n");
  same("bytes that are no module", (await thrown(() => Nissy.load(module.subarray(1))))[0], "CompileError");
  const { WebAssembly: whole } = globalThis;
  globalThis.WebAssembly = undefined;
  const [name, message] = await thrown(() => Nissy.load(module));
  const unheard = [];
  const hear = (reason) => unheard.push(reason.message);
  process.on("unhandledRejection", hear);
  const missing = new Promise((_, reject) => setTimeout(() => reject(new Error("no network")), 1));
  same("nor is a module looked at", (await thrown(() => Nissy.load(missing)))[0], "NoWebAssembly");
  globalThis.WebAssembly = whole;
  await new Promise((done) => setTimeout(done, 20));
  process.off("unhandledRejection", hear);
  same("one that can't be had isn't told too, which would end node", unheard, []);
  same("an engine without WebAssembly", [name, message], ["NoWebAssembly", new NoWebAssembly().message]);
  same("it says so in words", /no WebAssembly/.test(message), true);
}

/** After many calls the memory is as large as after a few. */
async function tryMemory() {
  const { nissy, memory } = await loaded(Nissy);
  const lines = "R U F\n".repeat(20);
  const run = (at) => nissy.run(at % 1000 < 1 ? ["count", "dr-eofb", "1"] : ["invert"], at % 1000 < 1 ? "" : lines);
  let sizeAfterTen = 0;
  let done = 0;
  for (let at = 0; at < CALLS; at += 1) {
    done += run(at).status === 0 ? 1 : 0;
    if (at === 9) sizeAfterTen = memory.buffer.byteLength;
  }
  console.log(`${done} calls, ${sizeAfterTen} bytes of memory after ten and ${memory.buffer.byteLength} after all`);
  same("each of many calls is done", done, CALLS);
  same("the memory after many calls", memory.buffer.byteLength, sizeAfterTen);
}

/** Many lines have room, wherever the memory ends: it grows with each call here. */
async function tryRoom() {
  const { nissy } = await loaded(Nissy);
  const lengths = Array.from({ length: 340 }, (_, length) => length);
  const answered = [];
  const fault = await thrown(() => lengths.forEach((length) => {
    answered.push(nissy.factsAll(Array.from({ length: 256 }, () => " ".repeat(length))).every(({ solved }) => solved));
  }));
  same("many lines have room, wherever the memory ends", [fault, answered], [["nothing", ""], lengths.map(() => true)]);
}

const compiled = await WebAssembly.compile(module);
same("the module asks nothing of its host", WebAssembly.Module.imports(compiled), []);
same("what it exports", WebAssembly.Module.exports(compiled).map(({ name }) => name).sort(), EXPORTS);
const copied = module.buffer.slice(module.byteOffset, module.byteOffset + module.byteLength);
same("a module in an ArrayBuffer", text((await Nissy.load(copied)).run(["invert", "R"]).out), "R'\n");
const { nissy } = await loaded(Nissy);
tryRows(nissy);
await tryRefusals(nissy);
await tryMemory();
await tryRoom();
ended();
