// The table of the calls: of each how many arguments come before its options, what is asked for them, and how the reply
// is read. All that have these calls take them from here: a row more is a call more.
import { LINES, PAIRS_OF_LINES, ToldLines, allRequest, type ReadOne } from "./many.js";
import { bestIn, checkIn, countIn, factsIn, lineAfterIn, lineIn, outputLinesIn, solutionsIn } from "./replies.js";
import {
  bestRequest, checkRequest, checksRequest, countRequest, lineAfterRequest, lineRequest, listRequest, optionOf,
  runRequest, scrambleRequest, scramblesRequest, textRequest, type OfEach, type Request, type Rewriting,
} from "./requests.js";
import { asString } from "../shared/bytes.js";
import { attemptChecksIn } from "../text/attempt-checks.js";
import { attemptsIn } from "../text/attempts.js";
import { formPlacesOf, tokensOf } from "../text/tokens.js";
import { plainIn } from "../text/written.js";
import type { Calls } from "./calls.js";

/** `options`: the names of its own; `one` reads each reply of many lines; `isFollowed`: the progress of one is told. */
export type Row = {
  takes: number;
  options?: readonly string[];
  request: (...given: any[]) => Request;
  read: (reply: any, request: any) => unknown;
  one?: ReadOne;
  isFollowed?: boolean;
};

const rewriting = (call: Rewriting, read: Row["read"] = lineIn): Row =>
  ({ takes: 1, request: (line) => lineRequest(call, line), read });

const reading = (call: "plainLine" | "readAttempts", read: (told: any, text: string) => unknown): Row =>
  ({ takes: 1, request: (text) => textRequest(call, text), read: (told, { text }) => read(told, text) });

const OF_COUNTS = ["limit", "slack", "most", "nodes", "cut"];
const OF_LISTS = [...OF_COUNTS, "sides"];
const OF_BEST = ["soFar", "slack", "most", "nodes", "milliseconds", "cut"];

/** A call on many lines, or pairs. @param each what one line may be asked, for which the empty line stands */
const many = (
  takes: number, options: readonly string[], each: (...given: unknown[]) => OfEach, one: ReadOne, kind = LINES,
): Row => ({
  takes,
  options: [...options, "faults"],
  request: (...given) => allRequest(each(...given), kind, given[takes - 1], given[takes]),
  read(reply, request) {
    const told = new ToldLines(request, one);
    told.take(0, reply);
    return told.all();
  },
  one,
});

export const TABLE: Record<Exclude<keyof Calls<"now">, "solutions">, Row> = {
  invert: rewriting("invert"),
  unniss: rewriting("unniss"),
  cleanup: rewriting("cleanup"),
  facelets: rewriting("facelets"),
  // a line that is no line of moves is refused
  tokens: rewriting("unniss", (reply, { line }) => (lineIn(reply), tokensOf(asString(line)))),
  formPlaces: rewriting("unniss", (reply, { line }) => (lineIn(reply), formPlacesOf(asString(line)))),
  solve: { takes: 2, options: OF_LISTS, request: listRequest, read: solutionsIn },
  solveAll: many(2, OF_LISTS, (step, _, options) => listRequest(step, "", options), solutionsIn),
  count: { takes: 2, options: OF_COUNTS, request: countRequest, read: countIn },
  countAll: many(2, OF_COUNTS, (step, _, options) => countRequest(step, "", options), countIn),
  facts: { takes: 1, request: (line) => lineRequest("facts", line), read: factsIn },
  factsAll: many(1, [], () => lineRequest("facts", ""), factsIn),
  check: { takes: 2, request: checkRequest, read: checkIn },
  checkAll: many(1, [], () => checkRequest("", ""), checkIn, PAIRS_OF_LINES),
  plainLine: reading("plainLine", plainIn),
  readAttempts: reading("readAttempts", attemptsIn),
  checkAttempts: { takes: 1, options: ["scrambles"], request: checksRequest, read: attemptChecksIn },
  lineAfter: { takes: 2, request: lineAfterRequest, read: lineAfterIn },
  best: { takes: 1, options: OF_BEST, request: bestRequest, read: bestIn, isFollowed: true },
  bestAll: many(1, OF_BEST, (_, options) => bestRequest("", options), bestIn),
  scramble: { takes: 3, request: scrambleRequest, read: lineIn },
  scrambles: { takes: 4, request: scramblesRequest, read: outputLinesIn },
  run: {
    takes: 2,
    options: ["room"],
    request: (words, input, options = {}) => runRequest(words, input, optionOf(options, "room")),
    read: (reply) => reply,
  },
};

/** Gives a class the calls of the table, each made of a row and what the call is given, and others of its own. */
export function takeCalls<Caller extends object>(
  prototype: Caller, make: (caller: Caller, row: Row, given: unknown[]) => unknown,
  others: Partial<Caller> & ThisType<Caller>,
) {
  const calls = Object.entries(TABLE).map(([name, row]) =>
    [name, { [name](this: Caller, ...given: unknown[]) { return make(this, row, given); } }[name]] as const);
  for (const [name, value] of [...calls, ...Object.entries(others)]) {
    Object.defineProperty(prototype, name, { configurable: true, writable: true, value });
  }
}
