// Structs as C has them: their fields in order, where they stand, how they are read and written; and how calls end.

/** @returns the number of a field, of the struct that begins at a place */
export type Reading = (bytes: Uint8Array, at: number) => number;
export type Struct<Name extends string = string> = {
  bytes: number;
  /** At a multiple of which it stands. */
  alignment: number;
  at: Record<Name, number>;
  width: Record<Name, number>;
  read: Record<Name, Reading>;
};
/** How many bytes a field has, or the struct that it is; or several of either. */
type Size = number | Struct | readonly [each: number | Struct, count: number];

const word = (bytes: Uint8Array, at: number) =>
  bytes[at] + 256 * bytes[at + 1] + 65_536 * bytes[at + 2] + 16_777_216 * bytes[at + 3];

/** How a number of so many bytes is read at a place of a struct: of eight, above 2^53, the nearest that there is. */
const READINGS: Record<number, (place: number) => Reading> = {
  1: (place) => (bytes, at) => bytes[at + place],
  2: (place) => (bytes, at) => bytes[at + place] + 256 * bytes[at + place + 1],
  4: (place) => (bytes, at) => word(bytes, at + place),
  8: (place) => (bytes, at) => word(bytes, at + place) + 2 ** 32 * word(bytes, at + place + 4),
};

/** A struct of these fields, each at a multiple of its width, as C has them. */
export function struct<Name extends string>(fields: Record<Name, Size>): Struct<Name> {
  const made = { bytes: 0, alignment: 1, at: {}, width: {}, read: {} } as Struct<Name>;
  const aligned = (to: number) => Math.ceil(made.bytes / to) * to;
  for (const name of Object.keys(fields) as Name[]) {
    const size: Size = fields[name];
    const [each, count] = typeof size === "number" || "bytes" in size ? [size, 1] : size;
    const [width, alignment] = typeof each === "number" ? [each, each] : [each.bytes, each.alignment];
    made.at[name] = aligned(alignment);
    made.width[name] = width;
    if (typeof each === "number") made.read[name] = READINGS[width](made.at[name]);
    made.bytes = made.at[name] + width * count;
    made.alignment = Math.max(made.alignment, alignment);
  }
  made.bytes = aligned(made.alignment);
  return made;
}

function putNumber(bytes: Uint8Array, at: number, width: number, number: number) {
  for (let nth = 0; nth < width; nth += 1) bytes[at + nth] = Math.floor(number / 256 ** nth) % 256;
}

export function structOf<Name extends string>({ bytes, at, width }: Struct<Name>, numbers: Record<Name, number>) {
  const made = new Uint8Array(bytes);
  for (const name of Object.keys(numbers) as Name[]) putNumber(made, at[name], width[name], numbers[name]);
  return made;
}

/** With which each answer of the module begins, of a call on lines that may have a fault, and which of two has it. */
export const HEAD = struct({ status: 1, fault: 1, line: 1, other: 1, column: 4 });

/** How the calls end: the statuses of their answers. */
export const STATUS = { done: 0, fault: 1, usage: 2, stopped: 3, room: 4, cut: 5 } as const;

/** Whether an answer of this status has a value. */
export const hasValue = (status: number) => status === STATUS.done || status === STATUS.cut;

/** The number of the fault that a step can't begin at a cube. */
export const START_FAULT = 6;
