// The module's calls that read text as solvers write it, by their addresses as ABI.md has them.
//
//     node tests/module/text.mjs MODULE
import { ended, moduleBytes, same } from "./tally.mjs";

const LINE = 88;
const PLACE = 8;
const OF_PART = 56;
const NO_SCRAMBLE = 2n ** 64n - 1n;
const { exports } = (await WebAssembly.instantiate(moduleBytes)).instance;
const begin = Math.ceil(Number(exports.__heap_base.value) / 16) * 16;
exports.memory.grow(2);

/** Writes a text where memory is free, and returns where it stands, its length, and where memory is free after it. */
function put(text) {
  const bytes = new TextEncoder().encode(text);
  const at = begin + 32;
  new Uint8Array(exports.memory.buffer, at, bytes.length).set(bytes);
  return { at: BigInt(at), length: BigInt(bytes.length), free: Math.ceil((at + bytes.length + 1) / 16) * 16 };
}

const view = () => new DataView(exports.memory.buffer);
const long = (at) => Number(view().getBigUint64(at, true));

/** What `nissy_plain` says of a text, with so much room for bytes and for places. */
function plain(text, room) {
  const { at, length, free } = put(text);
  const places = free + Math.ceil((room + 1) / 16) * 16;
  exports.nissy_plain(BigInt(begin), at, length, BigInt(free), BigInt(room), BigInt(places), BigInt(room));
  const size = long(begin + 8);
  const line = new TextDecoder().decode(new Uint8Array(exports.memory.buffer, free, size).slice());
  return [view().getUint8(begin), view().getUint8(begin + 1), line, Array.from({ length: size }, (_, of) => long(places + PLACE * of))];
}

/** What `nissy_text_lines` says of a text, with room for so many lines: its answer, and of each line the six bytes and the ten numbers. */
function lines(text, room) {
  const { at, length, free } = put(text);
  exports.nissy_text_lines(BigInt(begin), at, length, BigInt(free), BigInt(room));
  const told = Array.from({ length: Math.min(room, long(begin + 8)) }, (_, of) => {
    const from = free + LINE * of;
    return [Array.from(new Uint8Array(exports.memory.buffer, from, 6)), Array.from({ length: 10 }, (_, field) => long(from + 8 + PLACE * field))];
  });
  return [view().getUint8(begin), long(begin + 8), long(begin + 16), told];
}

/** What `nissy_known_lines` says of a text, of so many scrambles: its answer, and of each part its seven numbers. */
function known(text, scrambles, room) {
  const { at, length, free } = put(text);
  const [parts, counts] = [free + LINE * room, free + (LINE + OF_PART) * room];
  exports.nissy_known_lines(BigInt(begin), at, length, ...[free, room, parts, room, counts, scrambles].map(BigInt));
  const told = Array.from({ length: Math.min(room, long(begin + 16)) }, (_, of) =>
    Array.from({ length: OF_PART / PLACE }, (__, field) => view().getBigUint64(parts + OF_PART * of + PLACE * field, true)));
  return [view().getUint8(begin), long(begin + 8), long(begin + 16), told];
}

// a label, a comma and a comment: their bits, and the places of the bytes that stay
same("a plain line", plain("EO: R, U // two", 64), [0, 1 + 4 + 16, " R  U ", [3, 4, 5, 6, 7, 8]]);
same("an apostrophe beyond ASCII takes three bytes", plain("R`", 64), [0, 0, "R\u2019", [0, 1, 1, 1]]);
same("too small a room", plain("R U F", 3), [4, 0, "R U", [0, 1, 2]]);
same("no text", plain("", 0), [0, 0, "", []]);

const SHEET = "#1 R U F\nF' U' R' // EO";
const SCRAMBLE = [[2, 0, 1, 0, 0, 0], [0, 0, 0, 2, 3, 3, 3, 8, 8, 8]];
const STEP = [[3, 1, 0, 0, 0, 0], [0, 0, 9, 9, 9, 9, 9, 18, 23, 23]];
same("a sheet of two lines", lines(SHEET, 4), [0, 2, 1, [SCRAMBLE, STEP]]);
same("room for one of them", lines(SHEET, 1), [4, 2, 1, [SCRAMBLE]]);
same("no lines", lines("", 0), [0, 0, 0, []]);

const SOLUTIONS = "2. F' U' R'\n1. U' R'\n3. R";
const PARTS = [[1n, 0n, 0n, 2n, 0n, 1n, 1n], [0n, 12n, 12n, 14n, 1n, 2n, 2n], [NO_SCRAMBLE, 21n, 21n, 23n, 2n, 3n, 3n]];
same("solutions of two known scrambles", known(SOLUTIONS, 2, 3), [0, 3, 3, PARTS]);
same("too small a room for their lines", known(SOLUTIONS, 2, 2).slice(0, 3), [4, 3, 0]);
same("no solutions", known("", 2, 0), [0, 0, 0, []]);
ended();
