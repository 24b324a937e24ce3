// What is asked of the engine, in plain values that a worker can be sent, each checked if it comes from a caller.
import {
  asString, bytesOf, eachOf, joinedWords, stringOf, takenLine, wholeNumber, wideNumber, type Text,
} from "../shared/bytes.js";
import type { AllRequest } from "./many.js";

export type Rewriting = "invert" | "unniss" | "cleanup" | "facelets";
/** Whether something is thrown, or told in the place of an answer. */
export type Telling = "throw" | "value";
/** On which the moves of a solution may be. */
export type Sides = "normal" | "inverse" | "both";
/** What `check` is given; null is one of too many bytes. */
export type Pair = { scramble: Text | null; solution: Text | null };

type Bounds = { slack: number; most: number; nodes: number; cut: Telling };
export type Search = Bounds & { step: string; line: Text; limit: number };
/** `after`: the solution after which the list begins. */
export type SolveRequest = Search & { call: "solve"; after?: Text | undefined };
export type OfEach = SolveRequest
  | Search & { call: "count" }
  | Search & { call: "solveSides"; sides: Sides }
  | Bounds & { call: "best"; scramble: Text; soFar: Text; axes: readonly number[]; milliseconds: number }
  | { call: "facts"; line: Text }
  | { call: "check"; scramble: Text; solution: Text };
/** What an engine is asked. */
export type Request = OfEach | AllRequest
  | Search & { call: "countSides"; sides: Sides }
  | { call: "run"; words: Uint8Array; input: Uint8Array; room: number | undefined }
  | { call: Rewriting; line: Text }
  | { call: "lineAfter"; scramble: Text; soFar: Text }
  | { call: "plainLine" | "readAttempts"; text: string }
  | { call: "checkAttempts"; text: string; scrambles?: string[] }
  | { call: "scramble"; state: bigint; stream: bigint; length: number }
  | { call: "steps" };
export type RequestOf<Call extends Request["call"]> = Request & { call: Call };

/** How far a step is searched: `limit`, the most turns of a solution, at most and else 20; `slack`, how many turns more
 * than the shortest it may have, else none; `most`, after how many solutions the search ends, else after all; `nodes`,
 * at how many positions it looks at most, else at all. A search that would look at more is cut: `cut` says whether
 * `SearchCut` is thrown, as it is else, or what was found until then returned. */
export type Wanted = {
  [Name in "limit" | "slack" | "most" | "nodes"]?: number | undefined;
} & { cut?: Telling | undefined };

/** On which sides the moves of solutions may be: on the line alone, as they are if it isn't given, on its inverse
 * alone, or on both; each solution then says its moves on both. */
export type OnSides<On extends Sides | undefined = Sides | undefined> = { sides?: On };

/** Scrambles that are known, of which a text has only solutions. */
export type Known = { scrambles?: readonly Text[] | undefined };

/** What is wanted of the best ways on: `soFar`, the moves that were made after the scramble, those in brackets on its
 * inverse, else none; `slack`, how many turns longer the first step may be than the shortest on the scramble alone, on
 * its inverse alone, or over both, else none; `most`, how many rows, else 20; `milliseconds`, after which no piece is
 * begun, of one length of the first step and one axis each, and the search is cut: with a slack of 3 one may take some
 * seconds. In a pool each axis has `nodes` and `milliseconds` by itself. */
export type BestWanted = Omit<Wanted, "limit"> & { soFar?: Text | undefined; milliseconds?: number | undefined };

export const MOST_TURNS = 20;

/** How many of the best are told if it isn't said. */
const MOST_TOLD = 20;

/** The most turns of a scramble, the most scrambles, and the most bytes of a turn with what stands after it. */
const MOST_SCRAMBLED = 256;
const MOST_SCRAMBLES = 10_000;
const MOST_OF_TURN = 3;

/** An option, read once. Only the object's own is one: what objects inherit may be what a script gave to all. */
export function optionOf(options: unknown, name: string, otherwise: unknown = undefined): unknown {
  if (typeof options !== "object" || options === null) throw new TypeError("the options are no object");
  const given = Object.hasOwn(options, name) ? (options as any)[name] : undefined;
  return given === undefined ? otherwise : given;
}

/** Refuses an option that a call doesn't have, such as one that is misspelled. */
export function refuseUnknown(options: unknown, known: readonly string[]) {
  // what is no object is refused where an option is read
  const given = typeof options === "object" && options !== null ? Object.keys(options) : [];
  const unknown = given.find((name) => !known.includes(name));
  if (unknown !== undefined) throw new TypeError(`there is no option ${unknown}`);
}

export function runRequest(words: unknown, input: unknown = "", room: unknown = undefined): RequestOf<"run"> {
  const listed = joinedWords(words);
  const given = bytesOf(input, "the input");
  // the module would take a negative one as 2^64 less so much, and write beyond the memory
  const size = room === undefined ? room : wholeNumber(room, "the room", Number.MAX_SAFE_INTEGER);
  return { call: "run", words: listed, input: given, room: size };
}

export const lineRequest = <Call extends Rewriting | "facts">(call: Call, line: unknown) =>
  ({ call, line: takenLine(line, "the line") });

/** An option that is a bound, which Infinity and nothing leave open. */
function boundOf(options: unknown, name: string, what: string, otherwise: number = Infinity) {
  const given = optionOf(options, name, otherwise);
  return given === Infinity ? given : wholeNumber(given, `the greatest number of ${what}`, Number.MAX_SAFE_INTEGER);
}

/** An option that says whether something is thrown. */
export function toldBy(options: unknown, name: string, otherwise: Telling): Telling {
  const given = optionOf(options, name, otherwise);
  if (typeof given !== "string") throw new TypeError(`the option ${name} is no string`);
  if (given !== "throw" && given !== "value") throw new RangeError(`the option ${name} is neither "throw" nor "value"`);
  return given;
}

const boundsIn = (options: unknown, what: string, otherwise?: number): Bounds => ({
  slack: wholeNumber(optionOf(options, "slack", 0), "the slack", MOST_TURNS),
  most: boundOf(options, "most", what, otherwise),
  nodes: boundOf(options, "nodes", "nodes"),
  cut: toldBy(options, "cut", "throw"),
});

const searchOf = (step: unknown, line: unknown, options: unknown): Search => ({
  limit: wholeNumber(optionOf(options, "limit", MOST_TURNS), "the limit", MOST_TURNS),
  ...boundsIn(options, "solutions"),
  step: stringOf(step, "the step"),
  line: takenLine(line, "the line"),
});

export const countRequest = (step: unknown, line: unknown, options: unknown = {}): RequestOf<"count"> =>
  ({ call: "count", ...searchOf(step, line, options) });

export const solveRequest = (step: unknown, line: unknown, options: unknown = {}): SolveRequest =>
  ({ call: "solve", ...searchOf(step, line, options) });

const SIDES_OF_LISTS: readonly unknown[] = ["normal", "inverse", "both"];

/** The same, or on the sides that are asked for. */
export function listRequest(step: unknown, line: unknown, options: unknown = {}): RequestOf<"solve" | "solveSides"> {
  const sides = optionOf(options, "sides");
  if (sides === undefined) return solveRequest(step, line, options);
  if (typeof sides !== "string") throw new TypeError("the option sides is no string");
  if (!SIDES_OF_LISTS.includes(sides)) throw new RangeError('the option sides is none of "normal", "inverse", "both"');
  return { call: "solveSides", sides: sides as Sides, ...searchOf(step, line, options) };
}

export const OF_SOLUTIONS = ["limit", "slack", "after"];

const afterOf = (given: unknown) => (given === undefined ? given : takenLine(given, "the option after"));

export const solutionsRequest = (step: unknown, line: unknown, options: unknown = {}): SolveRequest => ({
  ...solveRequest(step, line, { limit: optionOf(options, "limit"), slack: optionOf(options, "slack") }),
  after: afterOf(optionOf(options, "after")),
});

export const checkRequest = (scramble: unknown, solution: unknown): RequestOf<"check"> => ({
  call: "check",
  scramble: takenLine(scramble, "the scramble"),
  solution: takenLine(solution, "the solution"),
});

function writtenText(text: unknown) {
  const written = stringOf(text, "the text");
  takenLine(written, "the text");
  return written;
}

export const textRequest = <Call extends "plainLine" | "readAttempts" | "checkAttempts">(call: Call, text: unknown) =>
  ({ call, text: writtenText(text) });

/** A known scramble as the line of an attempt: a byte that is no text is at fault there as what stands for it. */
function knownScramble(scramble: unknown, index: number) {
  const taken = takenLine(scramble, `scramble ${index + 1}`);
  return typeof scramble === "string" ? scramble : asString(taken);
}

export function checksRequest(text: unknown, options: unknown = {}): RequestOf<"checkAttempts"> {
  const scrambles = optionOf(options, "scrambles");
  if (scrambles === undefined) return textRequest("checkAttempts", text);
  if (!Array.isArray(scrambles)) throw new TypeError("the scrambles are no array");
  return { ...textRequest("checkAttempts", text), scrambles: eachOf(scrambles, knownScramble) };
}

export const lineAfterRequest = (scramble: unknown, soFar: unknown = ""): RequestOf<"lineAfter"> => ({
  call: "lineAfter",
  scramble: takenLine(scramble, "the scramble"),
  soFar: takenLine(soFar, "the moves so far"),
});

const ALL_AXES = [0, 1, 2];

export const bestRequest = (scramble: unknown, options: unknown = {}): RequestOf<"best"> => ({
  ...lineAfterRequest(scramble, optionOf(options, "soFar")),
  call: "best",
  ...boundsIn(options, "rows", MOST_TOLD),
  milliseconds: boundOf(options, "milliseconds", "milliseconds"),
  axes: ALL_AXES,
});

export const scrambleRequest = (state: unknown, stream: unknown, length: unknown): RequestOf<"scramble"> => ({
  call: "scramble",
  state: wideNumber(state, "the state"),
  stream: wideNumber(stream, "the stream"),
  length: wholeNumber(length, "the length", MOST_SCRAMBLED),
});

/** A run of the program's command, with room for its longest output. */
export function scramblesRequest(state: unknown, stream: unknown, length: unknown, count: unknown) {
  const one = scrambleRequest(state, stream, length);
  const many = wholeNumber(count, "the count", MOST_SCRAMBLES);
  const words = [one.call, one.state, one.stream, one.length, many].map(String);
  return runRequest(words, "", many * (one.length * MOST_OF_TURN + 1));
}
