// What the module, called as web/module/ABI.md says and without its scripts, does with rooms: those of runs, and those in
// which it builds.
import { ended, moduleBytes as module, same, text } from "./tally.mjs";

const USAGE = "usage: nissy COMMAND [ARGUMENTS]\n";
const OUT_OF_ROOM = "nissy: cannot write\n";
const OUT_OF_MEMORY = "nissy: out of memory\n";
const SMALL = 256;
const LARGE = 2_621_440;
const FILLED = 0x23;

// The least room of a call, its words, its input, and its status in that room. A room of at most 4,160 bytes is given whole where a call
// first asks for memory: a block of 2^k - 16 bytes, of which 48 are the arena's own, for a first word of at most 2^k - 64. Of a larger room
// the arena takes whole pages of 4,096 bytes at once, less 16, and leaves 4,096 bytes and a few. A step takes the memory of its moves and
// distances, 75,776 bytes (18.5 pages) for an orientation on one axis, 227,328 (55.5) for one on any, 1,179,117 (287.87) for a domino
// reduction, and 2,358,234 (575.74) for one of two; its words take less than an eighth of a page.
const inPages = (pages, ...steps) => steps.map((step) => [pages * 4096 + 16, `count\0${step}\0` + "1\0", "\n", 0]);
const LEAST_ROOMS = [
  [512 - 16, "invert\0", "R\n", 0],
  [512 - 16, `${"q".repeat(300)}\0`, "", 2],
  [1024 - 16, `${"q".repeat(600)}\0`, "", 2],
  [2048 - 16, `${"q".repeat(1500)}\0`, "", 2],
  [4096 - 16, `${"q".repeat(3000)}\0`, "", 2],
  ...inPages(19, "eofb", "eorl", "eoud"),
  ...inPages(56, "eo"),
  ...inPages(288, "drud-eofb", "drrl-eofb", "drud-eorl", "drfb-eorl", "drrl-eoud", "drfb-eoud"),
  ...inPages(576, "dr-eofb", "dr-eorl", "dr-eoud"),
];

/** An instance whose runs return each number of their answer, what became of the room, and whether nothing else was written. */
async function runner() {
  const { instance } = await WebAssembly.instantiate(module, {});
  const { memory, nissy_run: run, __heap_base: heap } = instance.exports;
  same("its memory has addresses of 32 bits", typeof memory.grow(64), "number");
  const base = Math.ceil(Number(heap.value) / 16) * 16;
  const [answerAt, roomAt, inputAt, outAt, errAt, wordsAt, lentAt] = [0, 64, 128, 192, 512, 1024, 8192].map((at) => base + at);
  return (words, input, outRoom, errRoom, lent) => {
    const bytes = new Uint8Array(memory.buffer);
    bytes.fill(FILLED, base, lentAt);
    bytes.fill(FILLED, lentAt + lent, lentAt + lent + 64);
    bytes.set(new TextEncoder().encode(words), wordsAt);
    bytes.set(new TextEncoder().encode(input), inputAt);
    const view = new DataView(memory.buffer);
    view.setBigUint64(roomAt, BigInt(lentAt), true);
    view.setBigUint64(roomAt + 8, BigInt(lent), true);
    run(...[answerAt, roomAt, wordsAt, words.length, inputAt, input.length, outAt, outRoom, errAt, errRoom].map(BigInt));
    const number = (at) => Number(view.getBigUint64(at, true));
    const is = (from, to) => bytes.subarray(from, to).every((byte) => byte === FILLED);
    return {
      status: bytes[answerAt],
      out: text(bytes.slice(outAt, outAt + number(answerAt + 8))),
      err: text(bytes.slice(errAt, errAt + number(answerAt + 16))),
      small: [bytes[answerAt + 1], bytes[answerAt + 2]],
      room: [number(roomAt) - lentAt, number(roomAt + 8)],
      kept:
        is(answerAt + 24, roomAt) && is(roomAt + 16, inputAt) && is(outAt + number(answerAt + 8), errAt) &&
        is(errAt + number(answerAt + 16), wordsAt) && is(lentAt + lent, lentAt + lent + 64),
    };
  };
}

/** Runs: where each number of an answer stands, and too little room for output and error text. */
function tryRuns(call) {
  const lent = 3_145_728;
  const rest = { room: [0, lent], kept: true };
  same("an answer where all fits", call("invert\0", "R\n", 3, 0, lent), { status: 0, out: "R'\n", err: "", small: [0, 0], ...rest });
  same("a byte of room too few", call("invert\0", "R\n", 2, 20, lent), { status: 3, out: "R'", err: OUT_OF_ROOM, small: [1, 0], ...rest });
  const cut = { status: 2, out: "", err: USAGE.slice(0, 32) };
  same("a byte of error room too few", call("nosuch\0", "", 0, 32, lent), { ...cut, small: [0, 1], ...rest });
  same("error room to the byte", call("nosuch\0", "", 0, 33, lent), { status: 2, out: "", err: USAGE, small: [0, 0], ...rest });
  same("no room for either", call("invert\0", "R\n", 0, 0, lent), { status: 3, out: "", err: "", small: [1, 1], ...rest });
}

/** What becomes of a room that is lent, and the least of each call. */
function tryRooms(call) {
  for (const size of [0, 16, 32, 256, 480, 496, 512, 1024, 4096, 4160, 4176, 8192, 65536]) {
    const { status, room, kept } = call("solve\0eofb\0" + "7\0F", "", 256, 128, size);
    same(`a room of ${size} bytes comes back`, [room, kept, status === 0 || status === 3], [[0, size], true, true]);
  }
  for (const [least, words, input, status] of LEAST_ROOMS) {
    const what = JSON.stringify(words.slice(0, 24));
    const wanted = { status, err: status === 2 ? USAGE : "", room: [0, least], kept: true };
    const short = { status: 3, err: OUT_OF_MEMORY, room: [0, least - 16], kept: true };
    const seen = ({ status, err, room, kept }) => ({ status, err, room, kept });
    same(`${what} in a room of ${least} bytes`, seen(call(words, input, 256, 128, least)), wanted);
    same(`${what} in 16 bytes fewer`, seen(call(words, input, 256, 128, least - 16)), short);
  }
}

/** Tables are built in rooms that stay, and anew in others if the step's are there already. */
async function tryBuilds() {
  const { instance } = await WebAssembly.instantiate(module, {});
  const { memory, nissy_build: build, __heap_base: heap } = instance.exports;
  const base = Math.ceil(Number(heap.value) / 16) * 16;
  memory.grow(Math.ceil((3 * LARGE) / 65_536));
  const view = new DataView(memory.buffer);
  const [tables, name, first, second] = [32, 48, 65_536, 65_536 + SMALL + LARGE].map((at) => base + at);
  const long = (at) => Number(view.getBigUint64(at, true));
  const stands = (blocks) => long(tables) >= blocks + SMALL && long(tables) < blocks + SMALL + LARGE;
  // the status, what became of both rooms, whether the struct has tables, and in which of two large rooms they are
  const built = (step, blocks, large) => {
    new Uint8Array(memory.buffer).set(new TextEncoder().encode(step), name);
    [blocks, SMALL, blocks + SMALL, large].forEach((each, at) => view.setBigUint64(base + 8 * at, BigInt(each), true));
    const status = build(...[base, base + 16, tables, name, step.length].map(BigInt));
    return [status, [long(base + 8), long(base + 24)], view.getUint8(tables + 8) === 1, stands(first), stands(second)];
  };
  same("tables of no step", built("eox", first, LARGE), [2, [SMALL, LARGE], false, false, false]);
  same("tables in a small room", built("eofb", first, 4096), [3, [0, 0], false, false, false]);
  same("tables in a room", built("eofb", first, LARGE), [0, [0, 0], true, true, false]);
  same("those of the same step in another", built("eofb", second, LARGE), [0, [0, 0], true, false, true]);
}

const call = await runner();
tryRuns(call);
tryRooms(call);
await tryBuilds();
ended();
