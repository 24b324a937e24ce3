// The command `nissy` in node: what the program does with its words, its streams and its status, by the module.
import { readFileSync } from "node:fs";
import process from "node:process";
import { countIn, withValue, type Seen } from "../calls/replies.js";
import { MOST_TURNS, countRequest, runRequest, solveRequest } from "../calls/requests.js";
import { Instance } from "../engine/instance.js";
import { counted, runIn, solvedBytes } from "../engine/line-calls.js";
import { LINE_FEED, MOST_INPUT, encoded, textIn } from "../shared/bytes.js";
import { NissyFault, inLine } from "../shared/faults.js";
import { SEARCH_ANSWER, SOLUTION } from "../shared/layout.js";
import { STATUS } from "../shared/structs.js";
import { isStep, type Step } from "../shared/steps.js";
import { answerInput, split } from "./input-lines.js";
import { OUT_OF_MEMORY, Stop, TOO_LONG } from "./stop.js";
import { readSome, writeAll } from "./streams.js";

type Piece = Seen & { out: Uint8Array };

/** A search, and the words of the line that it is asked for: if there are none, it is asked for each of the input. */
type Search = { isCount: boolean; step: Step; limit: number; slack: number; words: string[] };

const INPUT = 0;
const OUTPUT = 1;
const ERRORS = 2;

/** How many numbers follow the step. */
const SEARCHES = new Map([["solve", 1], ["count", 1], ["near", 2]]);

/** The room for the output of a run: none without a search is longer than 10,000 scrambles of 256 turns. */
const RUN_ROOM = 8 * 1_048_576;

/** So many solutions are asked for at once. */
const MOST_OF_PIECE = 4_000;

const BRACKET = "(".charCodeAt(0);

/** A piece of a list, and a line feed. */
const pieceRoom = new Uint8Array(MOST_OF_PIECE * SOLUTION + 1);

/** @param why the command ends if the stream fails */
function byStream<Done>(why: string, attempt: () => Done): Done {
  try {
    return attempt();
  } catch {
    throw Stop.because(why);
  }
}

const write = (bytes: Uint8Array) => byStream("cannot write", () => writeAll(OUTPUT, bytes));
const writeText = (text: string) => write(encoded(text));
const read = (buffer: Uint8Array) => byStream("cannot read", () => readSome(INPUT, buffer));

/** Makes a run without a search, writes its output, and says how many bytes that has. */
function run(instance: Instance, words: string[], input: Uint8Array, first = 1): number {
  const { status, out, err } = runIn(instance, runRequest(words, input, RUN_ROOM));
  write(out);
  if (status !== STATUS.done) throw new Stop(status, textIn(err)).after(first - 1);
  return out.length;
}

function writeCount(instance: Instance, { step, limit }: Search, line: Uint8Array) {
  const request = countRequest(step, line, { limit });
  const { length, solutions, nodes } = countIn(counted(instance, request), request);
  writeText(`length ${length ?? "none"} solutions ${solutions} nodes ${nodes}\n`);
}

const READ = SEARCH_ANSWER.read;
const hasMore = ({ answer, at }: Piece) => READ.more(answer, at) === 1;

/** Writes a piece of a list, and an empty line after the last one. */
function writePiece(piece: Piece) {
  const { out } = piece;
  pieceRoom.set(out);
  pieceRoom[out.length] = LINE_FEED;
  write(pieceRoom.subarray(0, hasMore(piece) ? out.length : out.length + 1));
}

/** The moves of the last of some solutions, which has a line such as `F B' (2)`, or `(0)` if no move is needed. */
const lastMoves = (out: Uint8Array) =>
  textIn(out.subarray(out.lastIndexOf(LINE_FEED, out.length - 2) + 1, out.lastIndexOf(BRACKET))).trimEnd();

/** Writes the solutions of a line in pieces, each of which goes on after the last solution of the one before. */
function writeSolutions(instance: Instance, { step, limit, slack }: Search, line: Uint8Array) {
  const request = solveRequest(step, line, { limit, slack, most: MOST_OF_PIECE });
  let piece: Piece = withValue(solvedBytes(instance, request));
  if (READ.solutions(piece.answer, piece.at) === 0) return writeText(`no solution within ${limit} moves\n\n`);
  writePiece(piece);
  while (hasMore(piece)) {
    piece = withValue(solvedBytes(instance, { ...request, after: lastMoves(piece.out) }));
    writePiece(piece);
  }
}

function searchOf([command, step, ...rest]: string[]): Search | undefined {
  const count = SEARCHES.get(command);
  const numbers = rest.slice(0, count);
  const areNumbers = numbers.every((word) => /^[0-9]+$/.test(word) && Number(word) <= MOST_TURNS);
  if (numbers.length !== count || !areNumbers || !isStep(step)) return undefined;
  const [limit, slack = 0] = numbers.map(Number);
  return { isCount: command === "count", step, limit, slack, words: rest.slice(count) };
}

/** Answers lines of a search by the tables that stay. */
function searchLines(instance: Instance, search: Search, lines: Uint8Array, first: number) {
  const writeFound = search.isCount ? writeCount : writeSolutions;
  let number = first;
  for (const line of split(lines)) {
    try {
      writeFound(instance, search, line);
    } catch (error) {
      throw inLine(error, number);
    }
    number += 1;
  }
}

function inputOf(words: string[]) {
  const input = encoded(`${words.join(" ")}\n`);
  if (input.length > MOST_INPUT) throw Stop.because(TOO_LONG);
  return input;
}

/** Makes a search. Its tables are built before anything is read. */
function makeSearch(instance: Instance, search: Search) {
  instance.tablesOf(search.step);
  if (search.words.length > 0) searchLines(instance, search, inputOf(search.words), 1);
  else answerInput(read, (lines, first) => searchLines(instance, search, lines, first));
}

/** Does what the words say. Those that read lines write nothing for no input; of the others only no scrambles do so. */
function obey(instance: Instance, words: string[]) {
  const search = searchOf(words);
  if (search !== undefined) makeSearch(instance, search);
  else if (run(instance, words, new Uint8Array(0)) === 0 && words[0] !== "scramble") {
    answerInput(read, (lines, first) => run(instance, words, lines, first));
  }
}

async function started(): Promise<Instance> {
  if (!globalThis.WebAssembly) throw Stop.because("this node runs no WebAssembly");
  try {
    const module = readFileSync(new URL("../nissy.wasm", import.meta.url));
    return new Instance((await WebAssembly.instantiate(module)).instance);
  } catch (error) {
    throw Stop.because(`nissy.wasm can't be loaded: ${(error as Error).message}`);
  }
}

function stopOf(error: unknown): Stop {
  if (error instanceof Stop) return error;
  if (error instanceof NissyFault) return new Stop(STATUS.fault, `nissy: ${error.message}\n`);
  // what the host has no memory for
  if (error instanceof RangeError) return Stop.because(OUT_OF_MEMORY);
  return Stop.because(`the engine broke off: ${(error as Error).message}`);
}

async function main(): Promise<number> {
  try {
    obey(await started(), process.argv.slice(2));
    return STATUS.done;
  } catch (error) {
    const stop = stopOf(error);
    try {
      writeAll(ERRORS, encoded(stop.text));
    } catch {
      // nobody reads it
    }
    return stop.status;
  }
}

process.exitCode = await main();
