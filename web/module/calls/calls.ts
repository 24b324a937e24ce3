// The calls, as a caller has them: what each takes and tells, at once or later by a worker or several.
import type { AttemptCheck } from "../text/attempt-checks.js";
import type { Attempt } from "../text/attempts.js";
import type { Check, Facts } from "../shared/facts.js";
import type { FormPlace, Token } from "../text/tokens.js";
import type { PlainLine } from "../text/written.js";
import type { StepName } from "../shared/steps.js";
import type { Text } from "../shared/bytes.js";
import type { Many, OnFaults, Told } from "./many.js";
import type { Answer, Best, Count, Solution, SolutionsOn } from "./replies.js";
import type { BestWanted, Known, OnSides, Sides, Wanted } from "./requests.js";
import type { Followed, Stoppable } from "./signals.js";

/** Whether calls end before they return, or promise what a worker, or one of a pool of them, tells. */
export type When = "now" | "worker" | "pool";

type After = { after?: Text | undefined };
export type Answered<Time extends When, Value> = Time extends "now" ? Value : Promise<Value>;
/** What a call may be given besides: later a signal, and of many lines in a pool what is told of the progress. */
export type Besides<Time extends When> = Time extends "now" ? unknown : Stoppable;
export type ManyBesides<Time extends When> = Time extends "pool" ? Followed & Stoppable : Besides<Time>;
/** The same of a call without options of its own. */
export type Rest<Time extends When> = Time extends "now" ? [] : [options?: Stoppable];
export type Listed<Time extends When, Value> = Time extends "now" ? Generator<Value, void, undefined>
  : AsyncGenerator<Value, void, undefined>;
/** If `room` is given, the output has room for so many bytes, and the run is made once. */
export type RunRest<Time extends When> = Time extends "now" ? [room?: number]
  : [options?: Stoppable & { room?: number | undefined }];

/** Each call throws a `TypeError` if it is given something of another type, and a `RangeError` for a number out of its
 * range, a step that isn't there, or if the host has no memory for the call. A call that reads a line throws
 * `NissyFault` if it can't be read, and a search `SearchCut` if it would look at more positions than it may. Of many
 * lines each fault, which says in which it is, stands in its place, or the first is thrown; of two lines its `line` is
 * 1 for the scramble, and its `part` names it. What is thrown at once, a promise is rejected with. */
export interface Calls<Time extends When> {
  invert(line: Text, ...rest: Rest<Time>): Answered<Time, string>;
  /** A line's moves as one sequence: those in brackets inverted at the end. */
  unniss(line: Text, ...rest: Rest<Time>): Answered<Time, string>;
  /** A line's moves without wide turns, slices and neighbours that join. */
  cleanup(line: Text, ...rest: Rest<Time>): Answered<Time, string>;
  /** The 54 letters of the cube after a line's moves, as the program's `print` shows them. */
  facelets(line: Text, ...rest: Rest<Time>): Answered<Time, string>;
  tokens(line: Text, ...rest: Rest<Time>): Answered<Time, Token[]>;
  /** Where a line has forms that the WCA's notation for solutions hasn't: those of all places are `check`'s `forms`. */
  formPlaces(line: Text, ...rest: Rest<Time>): Answered<Time, FormPlace[]>;
  /** The solutions of a step after a line, by length, then in turn order; with `sides` each has the moves of both. They
   * are named by the centres: after a line with rotations, slices or wide turns they follow `lineAfter(line)`. */
  solve<Name extends string, On extends Sides | undefined = undefined>(
    step: StepName<Name>, line: Text, options?: Wanted & OnSides<On> & Besides<Time>,
  ): Answered<Time, SolutionsOn<On>>;
  /** The same one after another, so that there is no list of them: all, or those after `after`, the moves of one. */
  solutions<Name extends string>(
    step: StepName<Name>, line: Text, options?: Pick<Wanted, "limit" | "slack"> & After & Besides<Time>,
  ): Listed<Time, Solution>;
  solveAll<Name extends string, Faults extends OnFaults = "value", On extends Sides | undefined = undefined>(
    step: StepName<Name>, lines: readonly Text[],
    options?: Wanted & OnSides<On> & Many<Faults> & ManyBesides<Time>,
  ): Answered<Time, Told<SolutionsOn<On>, Faults>[]>;
  count<Name extends string>(step: StepName<Name>, line: Text, options?: Wanted & Besides<Time>): Answered<Time, Count>;
  countAll<Name extends string, Faults extends OnFaults = "value">(
    step: StepName<Name>, lines: readonly Text[], options?: Wanted & Many<Faults> & ManyBesides<Time>,
  ): Answered<Time, Told<Count, Faults>[]>;
  /** What is seen of the cube after a line's moves without a search. */
  facts(line: Text, ...rest: Rest<Time>): Answered<Time, Facts>;
  factsAll<Faults extends OnFaults = "value">(
    lines: readonly Text[], options?: Many<Faults> & ManyBesides<Time>,
  ): Answered<Time, Told<Facts, Faults>[]>;
  check(scramble: Text, solution: Text, ...rest: Rest<Time>): Answered<Time, Check>;
  /** The same of many pairs of a scramble and a solution, such as two columns of a table. */
  checkAll<Faults extends OnFaults = "value">(
    pairs: readonly (readonly [Text, Text])[], options?: Many<Faults> & ManyBesides<Time>,
  ): Answered<Time, Told<Check, Faults>[]>;
  /** A text as solvers write it as one line: without labels, comments, and numbers of lines and moves. `placeOf` says
   * where a fault or a form of the line stands in the text. */
  plainLine(text: string, ...rest: Rest<Time>): Answered<Time, PlainLine>;
  /** The attempts of a text as solvers write it, at least one: a text of another form is one scramble. */
  readAttempts(text: string, ...rest: Rest<Time>): Answered<Time, Attempt[]>;
  /** What `check` says of each attempt that `readAttempts` reads in a text. With `scrambles` the text has solutions
   * alone: there is a check for each scramble in its order, without a solution if none is found; then one for each part
   * of the text that may be of another scramble, in doubt. */
  checkAttempts(text: string, options?: Known & Besides<Time>): Answered<Time, AttemptCheck[]>;
  /** The line of the cube at which a solver stands after a scramble and the moves so far, for the calls on one line:
   * face turns, named by the centres, with the moves in brackets inverted before the scramble. They name the faces as
   * the moves outside brackets leave the cube, as `best` reads them. Its `invert` is the line of the inverse side. */
  lineAfter(scramble: Text, soFar?: Text, ...rest: Rest<Time>): Answered<Time, string>;
  /** What may follow a scramble and the moves so far, the best first: each shortest orientation over both sides with
   * the best reduction on each axis that may follow it, over both sides too, or the reductions, if an orientation
   * holds. There are none after a reduction. */
  best(scramble: Text, options?: BestWanted & Followed & Besides<Time>): Answered<Time, Best>;
  bestAll<Faults extends OnFaults = "value">(
    scrambles: readonly Text[], options?: BestWanted & Many<Faults> & ManyBesides<Time>,
  ): Answered<Time, Told<Best, Faults>[]>;
  /** Random moves from a seed, as the program's `scramble` draws its first line: `length` turns, 256 at most. */
  scramble(
    state: number | bigint, stream: number | bigint, length: number, ...rest: Rest<Time>
  ): Answered<Time, string>;
  /** `count` scrambles of one seed, at most 10,000, of which `scramble` gives the first. */
  scrambles(
    state: number | bigint, stream: number | bigint, length: number, count: number, ...rest: Rest<Time>
  ): Answered<Time, string[]>;
  /** Does what the program does with these words after its name, and `input` as its standard input, which it reads if
   * its words don't give it. What the program reports is in the answer. A zero byte in a word is a `RangeError`. */
  run(words: readonly Text[], input?: Text, ...rest: RunRest<Time>): Answered<Time, Answer>;
}
