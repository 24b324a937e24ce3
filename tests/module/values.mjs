// Values of other types than the calls take, each of which could be taken for bytes.
import { createContext, runInContext } from "node:vm";

const BYTES = [0x52, 0x20, 0x55];

/** Another realm. */
export const elsewhere = createContext({});

/** What the words are of the only value that is refused in the host's own words. */
export const DETACHED = "bytes that were handed on";

/** A view of bytes whose buffer was handed on. */
function detached() {
  const bytes = Uint8Array.from(BYTES);
  structuredClone(bytes.buffer, { transfer: [bytes.buffer] });
  return bytes;
}

/** A class whose objects have no bytes, and say that they do. */
class Posing {
  length = 3;
  buffer = new ArrayBuffer(3);
  get [Symbol.toStringTag]() {
    return "Uint8Array";
  }
}

// what a value is, and the value
export const WRONG = [
  ["null", null],
  ["a truth value", true],
  ["a number", 82],
  ["a number of more bits", 82n],
  ["a symbol", Symbol("R")],
  ["a function", () => "R"],
  ["an object", {}],
  ["a negative length", { length: -50_000 }],
  ["a length that wraps", { length: 2 ** 32 }],
  ["bytes by their places", { 0: 0x52, length: 1 }],
  ["an array of bytes", BYTES],
  ["a string as an object", Object("R U")],
  ["a buffer", Uint8Array.from(BYTES).buffer],
  ["a shared buffer", new SharedArrayBuffer(3)],
  ["a view of data", new DataView(new ArrayBuffer(3))],
  ["bytes with signs", Int8Array.from(BYTES)],
  ["numbers of 16 bits", Uint16Array.of(0x52, 0x155)],
  ["an object of the kind without bytes", Object.create(Uint8Array.prototype)],
  ["an object that says it is of the kind", new Posing()],
  ["what stands before bytes", new Proxy(Uint8Array.from(BYTES), {})],
  [DETACHED, detached()],
  ["numbers of 16 bits of another realm", runInContext("Uint16Array.of(0x52)", elsewhere)],
];
