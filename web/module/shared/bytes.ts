// Texts as bytes of UTF-8, and what callers hand over: checked, so that nothing of another type reaches the module.

export type Text = string | Uint8Array;

const encoder = new TextEncoder();
const decoder = new TextDecoder();

export const encoded = (text: string): Uint8Array => encoder.encode(text);
export const encodedInto = (text: string, bytes: Uint8Array) => encoder.encodeInto(text, bytes);
export const textIn = (bytes: Uint8Array) => decoder.decode(bytes);
export const asString = (text: Text) => (typeof text === "string" ? text : textIn(text));

/** The most bytes of a line or of an input. */
export const MOST_INPUT = 16_777_216;

/** The most lines or words of an array: a host ends the process if it fills an array of less than twice as many. */
const MOST_VALUES = 67_108_864;

export const MOST_WIDE = 0xffff_ffff_ffff_ffffn;

export const LINE_FEED = 10;

/** A string of so many units isn't worth an array of its own. */
const SHORT = 4_096;

/** The name of a typed array's kind, which no other object has, and which is the same in each realm. */
const KIND = Object.getOwnPropertyDescriptor(Object.getPrototypeOf(Uint8Array.prototype), Symbol.toStringTag)?.get;

export const isBytes = (value: unknown): value is Uint8Array => KIND?.call(value) === "Uint8Array";

/** The bytes of a text: those of UTF-8 for a string, and of an array of bytes a copy. Anything else is refused: an
 * object that says of itself how long it is could reach what another caller left in the memory. */
export function bytesOf(text: unknown, what: string): Uint8Array {
  if (typeof text === "string") return encoded(text);
  if (!isBytes(text)) throw new TypeError(`${what} is neither a string nor a Uint8Array`);
  // at once, since another thread may make the caller's array longer meanwhile
  return new Uint8Array(text);
}

/** A line as it is handed on: a short string, or bytes of which nobody else has any. One of too many bytes is null: the
 * module isn't given it, since its memory keeps the size that it once had. */
export function readableLine(line: unknown, what: string): Text | null {
  const isString = typeof line === "string";
  if (isString && line.length <= SHORT) return line;
  // a unit of a string takes a byte at least
  const bytes = isString && line.length > MOST_INPUT ? null : bytesOf(line, what);
  return bytes === null || bytes.length > MOST_INPUT ? null : bytes;
}

/** The same, but one of too many bytes is refused. */
export function takenLine(line: unknown, what: string): Text {
  const taken = readableLine(line, what);
  if (taken === null) throw new RangeError(`${what} has more bytes than the engine reads`);
  return taken;
}

/** Which character of a line stands at a column, from 1. What stands before a fault spells moves: a character there has
 * one byte, or three if it is U+2019. */
export function characterAt(line: Text, column: number) {
  if (typeof line !== "string") return textIn(line.subarray(0, column - 1)).length + 1;
  let character = 1;
  for (let byte = 1; byte < column; character += 1) byte += line[character - 1] === "\u2019" ? 3 : 1;
  return character;
}

export function eachOf<Value, Made>(values: readonly Value[], make: (value: Value, index: number) => Made): Made[] {
  const length = wholeNumber(values.length, "the length of the array", MOST_VALUES);
  return Array.from({ length }, (_, index) => make(values[index], index));
}

export function joinedBytes(pieces: readonly Uint8Array[]): Uint8Array {
  const bytes = new Uint8Array(pieces.reduce((sum, { length }) => sum + length, 0));
  let at = 0;
  for (const piece of pieces) {
    bytes.set(piece, at);
    at += piece.length;
  }
  return bytes;
}

export function joinedWords(words: unknown): Uint8Array {
  if (!Array.isArray(words)) throw new TypeError("the words are no array");
  const listed = eachOf(words, (word, index) => bytesOf(word, `word ${index + 1}`));
  if (listed.some((word) => word.includes(0))) throw new RangeError("a word holds a zero byte");
  return joinedBytes(listed.flatMap((word) => [word, Uint8Array.of(0)]));
}

export function stringOf(value: unknown, what: string): string {
  if (typeof value !== "string") throw new TypeError(`${what} is no string`);
  return value;
}

export function wholeNumber(value: unknown, what: string, most: number): number {
  if (typeof value !== "number") throw new TypeError(`${what} is no number`);
  if (Number.isSafeInteger(value) && value >= 0 && value <= most) return value;
  throw new RangeError(`${what} is no whole number from 0 to ${most}`);
}

export function wideNumber(value: unknown, what: string): bigint {
  if (typeof value === "number") return BigInt(wholeNumber(value, what, Number.MAX_SAFE_INTEGER));
  if (typeof value !== "bigint") throw new TypeError(`${what} is neither a number nor a bigint`);
  if (value < 0n || value > MOST_WIDE) throw new RangeError(`${what} is no whole number of 64 bits`);
  return value;
}
