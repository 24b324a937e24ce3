// Text as solvers write it, in bytes for the module, and in JavaScript's units for who reads of it: where each byte,
// each line and each character of it stands.
import { encoded, textIn } from "../shared/bytes.js";

/** A text as one line: `places` has the place in the text of each of its signs, and `leftOut` names what it hasn't. */
export type PlainLine = { line: string; places: number[]; leftOut: string[] };

/** The same in bytes, of which each has its place in those of the text, with the module's bits of what is left out. */
export type WrittenLine = { bytes: Uint8Array; places: Uint32Array; leftOut: number };

/** Where something stands in a text: `at` in the string, from 0; its line, and its column there in characters of
 * Unicode, of which an emoji is one, both from 1. */
export type TextPlace = { at: number; line: number; column: number };

/** What the module leaves out, by its bits. */
const LEFT_OUT = ["labels", "numbers of moves", "comments", "line numbers", "commas", "signs that aren't seen"];

/** What is left out, by the names of its bits, of each number that these make. */
const NAMES_LEFT_OUT = Array.from({ length: 1 << LEFT_OUT.length }, (_, leftOut) =>
  LEFT_OUT.filter((__, bit) => ((leftOut >> bit) & 1) === 1));

/** The first bits of a byte that goes on a sign in UTF-8, and the least with which a sign of four bytes begins. */
const FIRST_BITS = 0xc0;
const GOES_ON = 0x80;
const OF_FOUR_BYTES = 0xf0;

/** The signs that end a line, of which two may end one together. */
export const FEED = 0x0a;
export const RETURN = 0x0d;

/** The first bits of the second of two units that are one character, and what they are. */
const FIRST_OF_UNIT = 0xfc00;
const SECOND_UNIT = 0xdc00;

/** The last character of one unit. */
const LAST_OF_UNIT = 0xffff;

/** What TextEncoder writes for half of a surrogate pair, which is no character. */
const NO_CHARACTER = /\ufffd/g;

/** @param byte of UTF-8 */
const begins = (byte: number) => (byte & FIRST_BITS) !== GOES_ON;

/** @param byte with which a sign begins
 * @returns how many units the sign has */
const unitsFrom = (byte: number): number => (byte >= OF_FOUR_BYTES ? 2 : 1);

/** The unit of each byte of a text, and the end. */
function unitsOf(bytes: Uint8Array) {
  const units = new Uint32Array(bytes.length + 1);
  let [unit, next] = [0, 0];
  for (let at = 0; at < bytes.length; at += 1) {
    if (begins(bytes[at])) [unit, next] = [next, next + unitsFrom(bytes[at])];
    units[at] = unit;
  }
  units[bytes.length] = next;
  return units;
}

/** Where each line of a text begins. */
function lineBegins(text: string) {
  const lines = [0];
  for (let at = 0; at < text.length; at += 1) {
    const unit = text.charCodeAt(at);
    const isEnd = unit === FEED || (unit === RETURN && text.charCodeAt(at + 1) !== FEED);
    if (isEnd) lines.push(at + 1);
  }
  return lines;
}

/** The end of each character of a text that has two units. */
function pairEnds(text: string) {
  const pairs: number[] = [];
  for (let at = 1; at < text.length; at += 1) {
    const isSecond = (text.charCodeAt(at) & FIRST_OF_UNIT) === SECOND_UNIT;
    // half of a pair is a character by itself
    if (isSecond && Number(text.codePointAt(at - 1)) > LAST_OF_UNIT) pairs.push(at + 1);
  }
  return pairs;
}

/** How many of some numbers, the least first, are at most as great as another one. */
function countUpTo(numbers: number[], most: number) {
  let [least, end] = [0, numbers.length];
  while (least < end) {
    const middle = (least + end) >> 1;
    if (numbers[middle] <= most) least = middle + 1;
    else end = middle;
  }
  return least;
}

/** The places of a text: its lines and its characters are looked for once. */
export class TextPlaces {
  #text: string;
  /** Where each line begins. */ #lines: number[];
  /** Behind each character of two units. */ #pairs: number[];

  constructor(text: string) {
    this.#text = text;
    this.#lines = lineBegins(text);
    this.#pairs = pairEnds(text);
  }

  /** @param at a unit of the text, or its end */
  of(at: number): TextPlace {
    // between the two signs of a line's end the next line begins
    const isBetween = this.#text.charCodeAt(at - 1) === RETURN && this.#text.charCodeAt(at) === FEED;
    const line = countUpTo(this.#lines, at + Number(isBetween));
    const begin = this.#lines[line - 1];
    const pairs = countUpTo(this.#pairs, at) - countUpTo(this.#pairs, begin);
    return { at, line, column: Math.max(at - begin, 0) - pairs + 1 };
  }
}

/** The unit of a fault or a form of a plain line in the text that it is of, whose end it has if it is at no sign. */
const unitOf = (character: number, { places }: PlainLine) =>
  places[character - 1] ?? (places.length === 0 ? 0 : places[places.length - 1] + 1);

/** Where a fault or a form of a plain line stands in the text that it is of, or null if a fault has no place. */
export const placeOf = (
  { character }: { character: number | null }, plain: PlainLine, text: string,
): TextPlace | null => (character === null ? null : new TextPlaces(text).of(unitOf(character, plain)));

/** A text in bytes and in units. */
export class WrittenText {
  bytes: Uint8Array;
  #text: string;
  /** Null if each byte is a unit. */ #units: Uint32Array | null;
  /** Null until one is asked for. */ #places: TextPlaces | null = null;

  constructor(text: string) {
    this.#text = text;
    this.bytes = encoded(text);
    this.#units = this.bytes.length === text.length ? null : unitsOf(this.bytes);
  }

  get places() {
    return (this.#places ??= new TextPlaces(this.#text));
  }

  /** The unit of a byte of the text, or its end. */
  unit(byte: number): number {
    return this.#units === null ? byte : this.#units[byte];
  }

  /** What stands from one byte to another, without white space around it or signs in front that quote it. */
  part(begin: number, end: number) {
    return this.#text.slice(this.unit(begin), this.unit(end)).trimEnd().replace(/^[\s>]+/u, "");
  }

  /** @returns a line that was written of the text in units, and the unit of each of its own */
  signs({ bytes, places }: WrittenLine): { line: string; places: number[] } {
    const line = textIn(bytes);
    const units = new Array<number>(line.length);
    for (let at = 0, next = 0; at < bytes.length; at += 1) {
      const count = begins(bytes[at]) ? unitsFrom(bytes[at]) : 0;
      for (let nth = 0; nth < count; nth += 1, next += 1) units[next] = this.unit(places[at]) + nth;
    }
    // half of a pair stays in the line as it stands in the text
    const asWritten = (_: string, at: number) => this.#text[units[at]];
    return { line: line.replace(NO_CHARACTER, asWritten), places: units };
  }
}

/** A line that was written of a text, of which parts are lines too. */
export class Cuts {
  #line: string;
  #places: number[];
  /** The unit of each byte; null if each byte is one. */ #units: Uint32Array | null;

  constructor(whole: WrittenText, written: WrittenLine) {
    const { line, places } = whole.signs(written);
    this.#line = line;
    this.#places = places;
    this.#units = line.length === written.bytes.length ? null : unitsOf(written.bytes);
  }

  /** @param leftOut the module's bits
   * @returns what stands from one byte of it to another */
  cut(begin: number, end: number, leftOut: number): PlainLine {
    const from = this.#units === null ? begin : this.#units[begin];
    const to = this.#units === null ? end : this.#units[end];
    const [line, places] = [this.#line.slice(from, to), this.#places.slice(from, to)];
    return { line, places, leftOut: NAMES_LEFT_OUT[leftOut].slice() };
  }
}

/** All of a text as the one line that was written of it. */
export const plainIn = (written: WrittenLine, text: string): PlainLine =>
  new Cuts(new WrittenText(text), written).cut(0, written.bytes.length, written.leftOut);
