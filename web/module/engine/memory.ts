// The memory of an instance of the module: where parts of it stand, and what is written and read there.
import { encodedInto, textIn, type Text } from "../shared/bytes.js";

const PAGE = 65_536;

/** A memory of 32-bit addresses has no more: the module would cut a greater one to that of another place. */
const MOST_BYTES = 65_536 * PAGE;

/** Structs, and the memory for tables, stand at multiples of it. */
const ALIGNMENT = 16;

export const aligned = (place: number): number => place + ((ALIGNMENT - (place % ALIGNMENT)) % ALIGNMENT);

/** @returns how many bytes it takes at most: three for a unit of a string */
export const roomFor = (line: Text): number => (typeof line === "string" ? 3 : 1) * line.length;

export class InstanceMemory {
  /** All of it, until it grows: one that grew is another one for JavaScript. */
  all: Uint8Array;

  constructor(private memory: WebAssembly.Memory) {
    this.all = new Uint8Array(memory.buffer);
  }

  reach(end: number) {
    if (end > MOST_BYTES) throw new RangeError("no memory has so many bytes");
    const missing = Math.ceil((end - this.all.length) / PAGE);
    if (missing > 0) this.memory.grow(missing);
    if (this.memory.buffer !== this.all.buffer) this.all = new Uint8Array(this.memory.buffer);
  }

  /** @returns so many numbers of eight bytes each, none of which is above 2^32 */
  longs(at: number, count: number): Uint32Array {
    const view = new DataView(this.all.buffer, at, 8 * count);
    const numbers = new Uint32Array(count);
    for (let nth = 0; nth < count; nth += 1) numbers[nth] = view.getUint32(8 * nth, true);
    return numbers;
  }

  /** @returns how many bytes the line took */
  put(at: number, line: Text): number {
    this.reach(at + roomFor(line));
    if (typeof line === "string") return encodedInto(line, this.bytes(at, roomFor(line))).written ?? 0;
    this.all.set(line, at);
    return line.length;
  }

  text(at: number, length: number): string {
    return textIn(this.bytes(at, length));
  }

  /** @returns these bytes as they stand here, until something else is written in their place */
  bytes(at: number, length: number): Uint8Array {
    return new Uint8Array(this.all.buffer, at, length);
  }

  copy(at: number, length: number): Uint8Array {
    return this.all.slice(at, at + length);
  }
}
