// What solvers write down of their attempts: scrambles, each with the steps of a solution and candidates beside it, put
// together of what the module tells of each line. Nothing of it is called at fault here: what is no line of moves is at
// fault where it is used.
import { LINE_KIND, type ToldText, type WrittenMoves } from "./text-calls.js";
import { MOVES_PART, TEXT_LINE } from "./text-layout.js";
import { Cuts, WrittenText, type PlainLine, type TextPlace } from "./written.js";
import type { Reading } from "../shared/structs.js";

/** A way that was tried: its steps, these in one, and what is said of it on lines of their own. */
export type AttemptCandidate = { steps: PlainLine[]; solution: PlainLine; note: string };

/** What makes one doubt a line or a check, by the module's numbers. */
const REASONS = [
  "", "another scramble", "several solutions", "side", "letters", "small letters", "comment", "repetition", "insertion",
  "a part", "which scramble", "step or scramble", "signs", "another attempt",
] as const;

/** What makes one doubt that an attempt is read as it was meant, and where that is seen in the text. */
export type AttemptDoubt = { reason: Exclude<typeof REASONS[number], "">; place: TextPlace };

/** An attempt at a scramble, each part with its places in the whole text. `name` is what tells the scramble from
 * others, such as `2.`, or empty; so many lines of prose stand `before` the first one; `steps` are the lines of the
 * solution, each of which a comment or a label may describe, and `candidates` the blocks after a blank line.
 * `solution` is the block whose label says so, else the steps in one, and null if it can't be told, or if there is
 * none. `doubt` counts if nothing solves, "step or scramble" always, and is null if there is none. It `isLabelled` if a
 * label such as `Solution:` calls the solution so: else it may be an attempt that was given up. */
export type Attempt = {
  name: string;
  scramble: PlainLine;
  steps: PlainLine[];
  solution: PlainLine | null;
  candidates: AttemptCandidate[];
  before: number;
  doubt: AttemptDoubt | null;
  isLabelled: boolean;
};

const LINE_READ = TEXT_LINE.read;
const PART_READ = MOVES_PART.read;

/** @returns one that has no place in the text */
export const withoutPlaces = (line: string): PlainLine => ({ line, places: [], leftOut: [] });

/** An attempt with nothing but a scramble. */
export const attemptOf = (scramble: PlainLine): Attempt => ({
  name: "", scramble, steps: [], solution: null, candidates: [], before: 0, doubt: null, isLabelled: false,
});

/** The moves of the lines of a kind. */
class Moves {
  #cuts: Cuts;

  constructor(whole: WrittenText, private moves: WrittenMoves) {
    this.#cuts = new Cuts(whole, moves);
  }

  /** Whether any line from one to another has such. */
  has(first: number, end: number): boolean {
    return this.moves.before[first] < this.moves.before[end];
  }

  /** The moves of the lines from one to another as one line. */
  of(first: number, end: number): PlainLine {
    if (!this.has(first, end)) return withoutPlaces("");
    const { before, parts } = this.moves;
    const begin = before[first] * MOVES_PART.bytes;
    const last = (before[end] - 1) * MOVES_PART.bytes;
    let left = 0;
    for (let at = begin; at <= last; at += MOVES_PART.bytes) left |= PART_READ.leftOut(parts, at);
    return this.#cuts.cut(PART_READ.begin(parts, begin), PART_READ.end(parts, last), left);
  }
}

/** Reads the attempts of a text, of which each is the lines from one to another. */
export class AttemptReader {
  readonly scrambles: Moves;
  #steps: Moves;
  #lines: Uint8Array;

  constructor(private written: WrittenText, { lines, moves }: ToldText) {
    this.#lines = lines;
    [this.scrambles, this.#steps] = moves.map((each) => new Moves(written, each));
  }

  /** @returns a number that is told of a line */
  #told(nth: number, read: Reading): number {
    return read(this.#lines, nth * TEXT_LINE.bytes);
  }

  /** @returns what stands in a line from one of its places to another */
  #words(nth: number, begin: Reading, end: Reading): string {
    return this.written.part(this.#told(nth, begin), this.#told(nth, end));
  }

  #label(nth: number): string {
    return this.#words(nth, LINE_READ.labelBegin, LINE_READ.labelEnd);
  }

  /** What a line without moves says: its label, if nothing follows that, else all of it. */
  #note(nth: number): string {
    const isLabelled = this.#told(nth, LINE_READ.labelBegin) < this.#told(nth, LINE_READ.labelEnd);
    if (isLabelled && this.#words(nth, LINE_READ.moves, LINE_READ.end) === "") return this.#label(nth);
    return this.#words(nth, LINE_READ.headEnd, LINE_READ.end).replace(/^\/\/\s*/, "");
  }

  /** @returns the first of some lines of which this is told, or their end */
  #first(first: number, end: number, read: Reading): number {
    let nth = first;
    while (nth < end && this.#told(nth, read) === 0) nth += 1;
    return nth;
  }

  /** @returns those of some lines of which this number is told */
  #having(lines: number[], read: Reading, wanted: number): number[] {
    return lines.filter((nth) => this.#told(nth, read) === wanted);
  }

  /** @returns each of some steps */
  #each(lines: number[]): PlainLine[] {
    return lines.map((nth) => this.#steps.of(nth, nth + 1));
  }

  /** What all of some steps have in one, among which no other stands: the one step if there is no other. */
  #inOne(steps: PlainLine[], lines: number[]): PlainLine {
    return steps.length === 1 ? steps[0] : this.#steps.of(lines[0], lines[lines.length - 1] + 1);
  }

  #candidate(group: number[]): AttemptCandidate {
    const lines = this.#having(group, LINE_READ.kind, LINE_KIND.step);
    const steps = this.#each(lines);
    const notes = this.#having(group, LINE_READ.kind, LINE_KIND.note).map((nth) => this.#note(nth)).join(" ");
    const [labelled] = this.#having(group, LINE_READ.labelled, 1);
    const note = notes || (labelled === undefined ? "" : this.#label(labelled));
    return { steps, solution: this.#inOne(steps, lines), note };
  }

  /** @param byte of the text, null beyond it */
  place(byte: number): TextPlace | null {
    const { bytes, places } = this.written;
    return byte <= bytes.length ? places.of(this.written.unit(byte)) : null;
  }

  /** @param number of a reason, which is seen at a byte of the text */
  doubt(number: number, byte: number): AttemptDoubt | null {
    const place = number === 0 ? null : this.place(byte);
    return place === null ? null : { reason: REASONS[number] as AttemptDoubt["reason"], place };
  }

  /** @returns the doubt of the first of some lines that has one */
  #doubtAmong(first: number, end: number): AttemptDoubt | null {
    const nth = this.#first(first, end, LINE_READ.doubt);
    return nth < end ? this.doubt(this.#told(nth, LINE_READ.doubt), this.#told(nth, LINE_READ.doubtAt)) : null;
  }

  /** The attempts that have a scramble. */
  all(): Attempt[] {
    const attempts: Attempt[] = [];
    const count = this.#lines.length / TEXT_LINE.bytes;
    for (let first = 0, end = 1; end <= count; end += 1) {
      if (end < count && this.#told(end, LINE_READ.attempt) === this.#told(first, LINE_READ.attempt)) continue;
      if (this.scrambles.has(first, end)) attempts.push(this.attempt(first, end));
      first = end;
    }
    return attempts;
  }

  /** The attempt that the lines from one to another are. */
  attempt(first: number, end: number): Attempt {
    const attempt = attemptOf(this.scrambles.of(first, end));
    attempt.doubt = this.#doubtAmong(first, end);
    const headed = this.#first(first, end, LINE_READ.headed);
    if (headed < end) attempt.name = this.#words(headed, LINE_READ.begin, LINE_READ.headEnd);
    const after: number[] = [];
    for (let nth = first; nth < end; nth += 1) {
      const kind = this.#told(nth, LINE_READ.kind);
      if (kind === LINE_KIND.before) attempt.before += 1;
      if (kind >= LINE_KIND.step) after.push(nth);
    }
    if (this.#steps.has(first, end)) this.#takeSteps(attempt, after);
    return attempt;
  }

  /** Gives an attempt what it has after its scramble.
   * @param after the lines there that aren't blank */
  #takeSteps(attempt: Attempt, after: number[]) {
    const every = this.#having(after, LINE_READ.kind, LINE_KIND.step);
    const told = this.#having(every, LINE_READ.solution, 1);
    const under = this.#having(every, LINE_READ.group, 0);
    attempt.steps = this.#each(under.length > 0 ? under : told);
    const alike = under.length === 0 || under[0] === told[0] ? attempt.steps : [];
    if (told.length > 0) attempt.solution = this.#inOne(alike, told);
    const labelled = this.#having(this.#having(after, LINE_READ.solution, 1), LINE_READ.labelled, 1);
    attempt.isLabelled = told.length > 0 && labelled.length > 0;
    if (under.length === every.length) return;
    // the first group stands before the others
    const others = every.slice(under.length).map((nth) => this.#told(nth, LINE_READ.group));
    const groups = new Map<number, number[]>(others.map((group) => [group, []]));
    for (const nth of after) groups.get(this.#told(nth, LINE_READ.group))?.push(nth);
    attempt.candidates = Array.from(groups.values(), (group) => this.#candidate(group));
  }
}

/** The attempts of a text as solvers write it, of which there is at least one. */
export function attemptsIn(told: ToldText, text: string): Attempt[] {
  const attempts = new AttemptReader(new WrittenText(text), told).all();
  return attempts.length > 0 ? attempts : [attemptOf(withoutPlaces(""))];
}
