// What is asked of many lines, and what is told: a value of each, or a fault in its place, or the first fault thrown.
import { eachOf, readableLine, takenLine, type Text } from "../shared/bytes.js";
import { SearchCut, inLine, type NissyFault } from "../shared/faults.js";
import { STATUS } from "../shared/structs.js";
import type { OneReply, Seen } from "./replies.js";
import { toldBy, type OfEach, type Pair, type Telling } from "./requests.js";

/** What is asked of each line or pair, null for one of too many bytes; `isPiece`: a worker tells how long it took. */
export type AllRequest<Each extends OfEach = OfEach> = {
  call: "all";
  each: Each;
  lines: (Text | Pair | null)[];
  faults: Telling;
  isPiece?: boolean;
};

/** The replies to as many lines as there is a reply to: the structs of the answers with a value, one after another, if
 * they are no more than that, since many objects take longer from thread to thread than their lines take the engine;
 * and beside them the other replies, each with its place. */
export type AllReply = { count: number; size: number; values: Uint8Array; others: [at: number, reply: OneReply][] };

export type ReadOne = (reply: any, each: any) => unknown;

/** What becomes of the faults of many lines: undefined has each in the place of an answer. */
export type OnFaults = Telling | undefined;

/** What is asked of many lines; `faults`: whether each stands in its answer's place, as without it, or is thrown. */
export type Many<Faults extends OnFaults = OnFaults> = { faults?: Faults };

/** What is told of a line of many: a value, or in its place what is wrong with it, unless `faults` has that thrown. */
export type Told<Value, Faults> = Faults extends "throw" ? Value : Value | NissyFault | RangeError;

/** What there are many of: their name, and how one is taken, by its number from 1. */
type Kind = { name: string; one: (value: unknown, number: number, take: typeof readableLine) => Text | Pair | null };

export const LINES: Kind = { name: "lines", one: (line, number, take) => take(line, `line ${number}`) };

export const PAIRS_OF_LINES: Kind = {
  name: "pairs",
  one(pair, number, take) {
    if (!Array.isArray(pair) || pair.length !== 2) throw new TypeError(`pair ${number} is no array of two lines`);
    const [scramble, solution] = ["scramble", "solution"].map((name, at) =>
      take(pair[at], `the ${name} of pair ${number}`));
    return { scramble, solution };
  },
};

export function allRequest(each: OfEach, { name, one }: Kind, values: unknown, options: unknown = {}): AllRequest {
  if (!Array.isArray(values)) throw new TypeError(`the ${name} are no array`);
  const faults = toldBy(options, "faults", "value");
  const take = faults === "value" ? readableLine : takenLine;
  return { call: "all", each, faults, lines: eachOf(values, (value, index) => one(value, index + 1, take)) };
}

/** Whether the reply for a line of many ends the call, so that no line after it is answered. */
export function endsAll({ each, faults }: AllRequest, { status }: OneReply) {
  if (status === STATUS.cut) return "cut" in each && each.cut === "throw";
  return status !== STATUS.done && faults === "throw";
}

/** What is told of many lines, each in its place. */
export class ToldLines {
  #told: unknown[];
  /** The first line of which an error is thrown. */
  #failed: { index: number; error: unknown } | null = null;

  constructor(private request: AllRequest, private one: ReadOne) {
    this.#told = new Array(request.lines.length);
  }

  /** Takes the replies to some lines. @param begin the place of the first one */
  take(begin: number, { count, size, values, others }: AllReply) {
    for (const [at, reply] of others) this.#told[begin + at] = this.#read(reply, begin + at);
    const isOther = new Set(others.map(([at]) => at));
    for (let at = 0; size > 0 && at < count; at += 1) {
      const place = at * size;
      const status = values[place] === STATUS.cut ? STATUS.cut : STATUS.done;
      const seen: Seen = { status, answer: values, at: place };
      if (!isOther.has(at)) this.#told[begin + at] = this.one(seen, this.request.each);
    }
  }

  /** What is thrown of a line has its number, and so has what is told in its place. */
  #read(reply: OneReply, index: number): unknown {
    const { each, faults } = this.request;
    try {
      return this.one(reply, each);
    } catch (thrown) {
      const error = inLine(thrown, index + 1, each.call === "check");
      const isThrown = faults === "throw" || error instanceof SearchCut;
      if (isThrown && (this.#failed?.index ?? Infinity) > index) this.#failed = { index, error };
      return error;
    }
  }

  all(): unknown[] {
    if (this.#failed !== null) throw this.#failed.error;
    return this.#told;
  }
}
