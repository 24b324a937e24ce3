// The calls of the module that read text as solvers write it. What they tell stays in bytes, which a worker hands over
// as they are: who asked makes values of them.
import {
  ATTEMPTS_ANSWER, ATTEMPT_CHECK, KNOWN_ANSWER, KNOWN_PART, MOVES_PART, PLAIN_ANSWER, TEXT_ANSWER, TEXT_LINE,
} from "./text-layout.js";
import { encoded, joinedBytes } from "../shared/bytes.js";
import { STATUS, struct, structOf } from "../shared/structs.js";
import type { Given, Instance } from "../engine/instance.js";
import { FEED, RETURN, type WrittenLine } from "./written.js";

/** The moves of the lines of a kind, one after another; `parts`: of each of these lines where its moves stand, as the
 * module has it, and `before`: how many of them come before each line of the text, and before its end. */
export type WrittenMoves = WrittenLine & { parts: Uint8Array; before: Uint32Array };

/** What the module tells of each line, the moves of scrambles and of steps, and of each attempt a check if asked to. */
export type ToldText = { lines: Uint8Array; moves: WrittenMoves[]; checks: Uint8Array };

/** What a line is, by the module's numbers. */
export const LINE_KIND = { blank: 0, before: 1, scramble: 2, step: 3, note: 4 };

/** The kind of the lines whose moves are asked for, by the module's numbers: those of scrambles, and steps. */
const WITH_MOVES = [LINE_KIND.scramble, LINE_KIND.step];

const PLACE = struct({ at: 8 });

/** So many bytes are written of each of a text at most, and of the end of a line beside brackets around its moves. */
const MOST_OF_BYTE = 3;
const OF_LINE = 3;

/** A known scramble as a part of a text, which has no lines. */
const withoutLines = (_: unknown, scramble: number) => structOf(KNOWN_PART, {
  scramble, begin: 0, nameBegin: 0, nameEnd: 0, firstLine: 0, solutionEnd: 0, endLine: 0,
});

/** The calls of an instance on a text. */
export class TextCalls {
  #text: Uint8Array;
  /** so many bytes have place that are written of it, if it has no odd apostrophes */ #room: number;
  /** how many lines it has */ #count = 0;
  /** what is told of each */ #told = new Uint8Array(0);

  constructor(private instance: Instance, text: string) {
    this.#text = encoded(text);
    this.#room = this.#text.length;
  }

  /** @returns all of it as one line */
  plain(): WrittenLine {
    return this.#written("nissy_plain", []).written;
  }

  /** What is told of its attempts without checks. */
  read(): ToldText {
    this.#readLines();
    return this.#toldWith(new Uint8Array(0));
  }

  /** And what is said of each attempt; or of each known scramble, as if it had no solution, and then of each part of a
   * text that has only solutions of these. */
  checked(known?: string[]): ToldText {
    const scrambles = (known ?? []).map(encoded);
    if (known === undefined) this.#readLines();
    const parts = known === undefined ? new Uint8Array(0) : this.#knownParts(scrambles);
    // twice as much has room as is written of it: the scramble has its own
    const tried = (room: number) => this.#checkedIn(2 * room, parts, scrambles);
    const checks = tried(this.#room) ?? tried(MOST_OF_BYTE * this.#room) ?? parts;
    return this.#toldWith(checks.length > 0 || known !== undefined ? checks : new Uint8Array(ATTEMPT_CHECK.bytes));
  }

  #toldWith(checks: Uint8Array): ToldText {
    return { lines: this.#told, moves: WITH_MOVES.map((kind, which) => this.#moves(kind, which)), checks };
  }

  #readLines() {
    const [, lines] = this.#ask("nissy_text_lines", [{ rows: this.#mostLines(), of: TEXT_LINE }]);
    this.#keep(lines, this.instance.answered(TEXT_ANSWER.read.lines));
  }

  /** @returns null if there was no room for so many bytes */
  #checkedIn(room: number, parts: Uint8Array, scrambles: Uint8Array[]): Uint8Array | null {
    let at = 0;
    const ends = joinedBytes(scrambles.map(({ length }) => structOf(PLACE, { at: at += length })));
    const count = parts.length / KNOWN_PART.bytes;
    const places = this.#ask("nissy_check_attempts", [
      this.#lines(), { rows: count, of: KNOWN_PART, first: parts }, { text: joinedBytes(scrambles) },
      { rows: scrambles.length, of: PLACE, first: ends }, { room }, { rows: room, of: PLACE },
      { rows: this.#count + count, of: ATTEMPT_CHECK },
    ]);
    if (this.instance.status !== STATUS.done) return null;
    const attempts = this.instance.answered(ATTEMPTS_ANSWER.read.attempts);
    return this.instance.memory.copy(places[places.length - 1], attempts * ATTEMPT_CHECK.bytes);
  }

  /** The parts of a text that has only solutions of some scrambles, after one of each of these. */
  #knownParts(scrambles: Uint8Array[]): Uint8Array {
    const room = this.#mostLines();
    const [, lines, parts] = this.#ask("nissy_known_lines", [
      { rows: room, of: TEXT_LINE }, { rows: room, of: KNOWN_PART }, { rows: scrambles.length, of: PLACE },
    ]);
    this.#keep(lines, this.instance.answered(KNOWN_ANSWER.read.lines));
    const count = this.instance.answered(KNOWN_ANSWER.read.parts);
    return joinedBytes([...scrambles.map(withoutLines), this.instance.memory.bytes(parts, count * KNOWN_PART.bytes)]);
  }

  #keep(lines: number, count: number) {
    this.#count = count;
    this.#room = this.#text.length + OF_LINE * count;
    this.#told = this.instance.memory.copy(lines, count * TEXT_LINE.bytes);
  }

  /** @returns how many lines the text has at most */
  #mostLines(): number {
    const text = this.#text;
    let most = 1;
    for (let at = 0; at < text.length; at += 1) if (text[at] === FEED || text[at] === RETURN) most += 1;
    return most;
  }

  /** @returns the moves of all lines of a kind, which are wanted by the module's number */
  #moves(kind: number, which: number): WrittenMoves {
    const before = new Uint32Array(this.#count + 1);
    for (let nth = 0; nth < this.#count; nth += 1)
      before[nth + 1] = before[nth] + Number(TEXT_LINE.read.kind(this.#told, nth * TEXT_LINE.bytes) === kind);
    const rows = before[this.#count];
    const { written, after } = this.#written("nissy_text_moves", [this.#lines(), which], [{ rows, of: MOVES_PART }]);
    return { ...written, parts: this.instance.memory.copy(after, rows * MOVES_PART.bytes), before };
  }

  /** The lines that were told, as a call is given them. */
  #lines(): Given {
    return { rows: this.#count, of: TEXT_LINE, first: this.#told };
  }

  #ask(name: string, given: Given[]): number[] {
    return this.instance.ask(name, [{ text: this.#text }, ...given]);
  }

  /** @param before the rooms that a call is given for a line and its places, and after them
   * @returns what the module writes of the text, and where stands what comes after it */
  #written(name: string, before: Given[], further: Given[] = []): { written: WrittenLine; after: number } {
    const { memory } = this.instance;
    const tried = (room: number) => {
      const places = this.#ask(name, [...before, { room }, { rows: room, of: PLACE }, ...further]);
      return this.instance.status === STATUS.done ? places.slice(before.length + 1) : null;
    };
    const [out, at, after] = tried(this.#room) ?? tried(MOST_OF_BYTE * this.#room) ?? [0, 0, 0];
    const length = this.instance.answered(PLAIN_ANSWER.read.length);
    const leftOut = this.instance.answered(PLAIN_ANSWER.read.leftOut);
    return { written: { bytes: memory.copy(out, length), places: memory.longs(at, length), leftOut }, after };
  }
}
