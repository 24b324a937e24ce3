// An instance of the module: how it is called, and its memory with the tables that stay there.
import type { Text } from "../shared/bytes.js";
import { HEAD, STATUS, struct, structOf, type Reading } from "../shared/structs.js";
import { InstanceMemory, aligned, roomFor } from "./memory.js";

/** What a call is given after the place of its answer, as the headers have it: a text, by its place and its length;
 * room for so many bytes, or for rows of a struct, the first of which may stand there; bytes, such as a struct, by
 * their place alone; memory that is lent, by the place of a room; and numbers. */
export type Given = { text: Text } | { room: number } | { rows: number; of: { bytes: number }; first?: Uint8Array }
  | { struct: Uint8Array } | { lent: number } | number | bigint;

/** Memory that is lent, which C takes otherwise. */
export const ROOM = struct({ block: 8, size: 8 });

/** What the tables of a step take, which stay. */
export const TABLES = 16;
const SMALL_ROOM = 256;
const LARGE_ROOM = 2_621_440;

/** The room for an answer. */
const ANSWER = 48;

const NEEDED = ["memory", "__heap_base", "nissy_run"];

export class Instance {
  #exports: { [name: string]: any };
  #tables = new Map<string, number>();
  /** Whether a call began that didn't return: what the module has in its memory is then in no order. */
  isBroken = false;
  memory: InstanceMemory;
  answer: number;
  /** Where memory begins in which nothing stays after a call. */
  free: number;

  constructor({ exports }: WebAssembly.Instance) {
    if (!NEEDED.every((name) => name in exports)) throw new TypeError("this is another module than nissy.wasm");
    this.#exports = exports;
    this.memory = new InstanceMemory(this.#exports.memory);
    this.answer = aligned(Number(this.#exports.__heap_base.value));
    this.free = aligned(this.answer + ANSWER);
  }

  /** Calls the module by what it is given, and says where each of these stands in its memory. */
  ask(name: string, given: readonly Given[]): number[] {
    return this.#ask(name, [BigInt(this.answer)], given).places;
  }

  #ask(name: string, words: (number | bigint)[], given: readonly Given[]) {
    const places: number[] = [];
    let end = this.free;
    for (let nth = 0; nth < given.length; nth += 1) {
      const each = given[nth];
      places[nth] = end;
      if (typeof each === "object") end = aligned(end + this.#hand(words, each, end));
      else words.push(each);
    }
    // no handler of this one runs if the host cuts a call off
    this.isBroken = true;
    const result: number | undefined = Reflect.apply(this.#exports[name], undefined, words);
    this.isBroken = false;
    return { places, result };
  }

  /** Writes what a call is given, hands over its words, and says how many bytes it has at its place. */
  #hand(words: (number | bigint)[], given: Exclude<Given, number | bigint>, place: number): number {
    const { memory } = this;
    words.push(BigInt(place));
    if ("text" in given) {
      words.push(BigInt(memory.put(place, given.text)));
      return roomFor(given.text);
    }
    if ("struct" in given) return memory.put(place, given.struct);
    if ("lent" in given) {
      memory.reach(place + ROOM.bytes + given.lent);
      return memory.put(place, structOf(ROOM, { block: place + ROOM.bytes, size: given.lent })) + given.lent;
    }
    const [count, bytes] = "room" in given ? [given.room, given.room] : [given.rows, given.rows * given.of.bytes];
    memory.reach(place + bytes);
    if ("rows" in given && given.first) memory.put(place, given.first);
    words.push(BigInt(count));
    return bytes;
  }

  answered(read: Reading) {
    return read(this.memory.all, this.answer);
  }

  get status() {
    return this.answered(HEAD.read.status);
  }

  /** Where the tables of a step are, which are built when they are asked for the first time, and stay. */
  tablesOf(step: string): number {
    const built = this.#tables.get(step);
    if (built !== undefined) return built;
    const given = [{ lent: SMALL_ROOM }, { lent: LARGE_ROOM }, { struct: new Uint8Array(TABLES) }, { text: step }];
    const { places: [, , tables, name], result } = this.#ask("nissy_build", [], given);
    if (result === STATUS.usage) throw new RangeError(`there is no step of the name ${JSON.stringify(step)}`);
    // the module keeps both rooms
    this.free = name;
    if (result !== STATUS.done) throw new Error("the tables of a step have no room");
    this.#tables.set(step, tables);
    return tables;
  }
}
