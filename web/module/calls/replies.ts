// Reads what the engine writes as values, or throws what is wrong.
import { AXES, CORNER_PLACES, EDGE_PLACES, FORMS, type Check, type Facts } from "../shared/facts.js";
import { NissyFault, SearchCut } from "../shared/faults.js";
import { AXIS_FACTS, CHECK_ANSWER, FACTS_ANSWER, SEARCH_ANSWER } from "../shared/layout.js";
import { START_FAULT, STATUS, hasValue } from "../shared/structs.js";
import { STEPS } from "../shared/steps.js";
import { textIn } from "../shared/bytes.js";
import { bothSidesIn, waysIn, type BestRow, type BestStep } from "../shared/ways.js";
import type { Sides, Telling } from "./requests.js";

/** What a run returns: the exit status of the program, 0 to 3, its output, and its error text; `full`: whether the
 * output was longer than the greatest room for it, and `out` is a beginning of it. */
export type Answer = { status: number; out: Uint8Array; err: Uint8Array; full: boolean };

/** A solution: its moves, and how many turns they are. */
export type Solution = { moves: string; length: number };

/** Solutions; `more`: whether others are beyond `most`; `nodes`: how many positions it looked at; `cut`: it was cut. */
type ListOf<One> = One[] & { readonly more: boolean; readonly nodes: number; cut?: true };
export type Solutions = ListOf<Solution>;
export type SideSolutions = ListOf<BestStep>;

export type SolutionsOn<On extends Sides | undefined> = On extends string ? SideSolutions : Solutions;

/** How many solutions there are: the least length, null if there are none, and at how many positions the search looked.
 * `more` is there if others are beyond `most`, or may be beyond a cut; `cut` if the search was cut, and the numbers are
 * those of what it found until then. */
export type Count = { length: number | null; solutions: number; nodes: number; more?: true; cut?: true };

/** A line that can't be read; `text`: the program's words for its fault. */
export type LineFault = { status: 1; fault: 1 | 2 | 3 | 4 | 5; column: number; character: number; text: string };

/** A cube at which a step can't begin; `start`: the one that must hold before, of which `text` says what is wrong. */
export type StartFault = { status: 1; fault: 6; step: string; start: string; text: string };

/** How a call on a line ended that has no value: at a fault, or since a number, its length or the room is refused. */
export type NoValue = LineFault | StartFault | { status: 2 | 3 | 4 };
/** Of a call on two lines, of which `line` is at fault: 1, the first, or 2. */
export type OfTwo = NoValue & { line: number };
/** The struct of an answer with a value, which stands at a place of some bytes. */
export type Seen = { status: 0 | 5; answer: Uint8Array; at: number };
export type LineReply = { status: 0; out: string } | NoValue;
export type SolveReply = Seen & { out: string } | NoValue;
export type SolveBytesReply = Seen & { out: Uint8Array } | NoValue;
/** How many there are of one length, if the search wasn't cut. */
export type CountOfSides = { solutions: number; nodes: number; isCut: boolean };
/** The rows that were found, as the module has them, and at how many positions it looked; `tried`: how many ways on. */
export type FoundParts = { status: 0 | 5; parts: Uint8Array; more: boolean; nodes: number };
export type FoundWays = { ways: Uint8Array; tried: number; nodes: number };
export type BestReply = FoundWays & { status: 0 | 5 } | OfTwo;

/** The best, in their order, and at how many positions the search looked; with `cut`, the best up to its bound. */
export type Best = BestRow[] & { nodes: number; cut?: true };

/** To one line or more of a call, but for runs. */
export type OneReply = Answer | LineReply | Seen | SolveReply | FoundParts | BestReply | OfTwo;

export const NAMES_OF_CHECK = ["scramble", "solution"];
const NAMES_OF_BEST = ["scramble", "moves so far"];

const BRACKET = "(".charCodeAt(0);
const ZERO = "0".charCodeAt(0);

export function errorIn(reply: NoValue & { line?: number }, names: readonly string[]): Error {
  const part = names[Number(reply.line) - 1] ?? "";
  switch (reply.status) {
    case STATUS.fault:
      return new NissyFault(reply.fault === START_FAULT ? `${reply.start} ${reply.text}` : reply.text, reply, part);
    case STATUS.stopped:
      return new RangeError(`the ${part || "line"} has more bytes than the engine reads`);
    case STATUS.room:
      return new RangeError("there are more solutions than there is room for: ask for fewer");
    // the numbers are checked before
    case STATUS.usage:
      return new RangeError("the option after is no sequence of turns of a face");
  }
}

export function withValue<Reply extends { status: number }>(
  reply: Reply, names: readonly string[] = [],
): Exclude<Reply, NoValue> {
  if (!hasValue(reply.status)) throw errorIn(reply as unknown as NoValue, names);
  return reply as Exclude<Reply, NoValue>;
}

export const lineIn = (reply: LineReply): string => withValue(reply).out;

/** @param answer of a run that has no fault, but may have been refused memory */
export function outputLinesIn({ status, out, err }: Answer): string[] {
  if (status !== STATUS.done) throw new RangeError(textIn(err).trim());
  // a line feed ends each
  return textIn(out).split("\n").slice(0, -1);
}

/** The solutions, each of a line such as `F B' (2)`, or `(0)` without moves; of millions no line becomes a string. */
function solutionsFrom(out: string): Solution[] {
  const digit = (at: number) => out.charCodeAt(at) - ZERO;
  const solutions = [];
  for (let begin = 0, end = out.indexOf("\n"); end >= 0; begin = end + 1, end = out.indexOf("\n", begin)) {
    // a line ends with `(n)` or `(nn)`
    const isShort = out.charCodeAt(end - 3) === BRACKET;
    const length = isShort ? digit(end - 2) : 10 * digit(end - 3) + digit(end - 2);
    // a blank stands before the bracket, if a move does
    const movesEnd = end - (isShort ? 4 : 5);
    solutions.push({ moves: movesEnd > begin ? out.slice(begin, movesEnd) : "", length });
  }
  return solutions;
}

/** The same number: one of 32 bits stands in the object that has it, and takes no memory of its own there. */
const kept = (number: number) => ((number | 0) === number ? number | 0 : number);

const READ = SEARCH_ANSWER.read;

type End = Pick<FoundParts, "status" | "more" | "nodes">;
const endSeen = ({ status, answer, at }: Seen): End =>
  ({ status, more: READ.more(answer, at) === 1, nodes: kept(READ.nodes(answer, at)) });

/** @param length of the shortest, if there is one: it is known also if that isn't counted */
function countOf({ status, more, nodes }: End, length: number, solutions: number): Count {
  const isKnown = solutions > 0 || (more && status !== STATUS.cut);
  const count: Count = { length: isKnown ? length : null, solutions, nodes };
  if (more) count.more = true;
  return count;
}

/** What is told of a search that was cut, unless that is thrown. */
function cutOr<Value>(status: number, cut: Telling, value: Value & { cut?: true }, error: () => SearchCut): Value {
  if (status !== STATUS.cut) return value;
  if (cut === "throw") throw error();
  value.cut = true;
  return value;
}

export function solutionsIn(reply: SolveReply | FoundParts | NoValue, { cut }: { cut: Telling }): any {
  const seen = withValue(reply);
  const solutions = "out" in seen ? solutionsFrom(seen.out) : bothSidesIn(seen.parts);
  const end = "out" in seen ? endSeen(seen) : seen;
  // beside its list, as its length is
  Object.defineProperties(solutions, { more: { value: end.more }, nodes: { value: end.nodes } });
  const error = () => new SearchCut(countOf(end, solutions[0]?.length, solutions.length), solutions);
  return cutOr(end.status, cut, solutions as Solutions, error);
}

export function countIn(reply: Seen | NoValue, { cut }: { cut: Telling }): Count {
  const seen = withValue(reply);
  const { answer, at, status } = seen;
  const count = countOf(endSeen(seen), READ.least(answer, at), kept(READ.solutions(answer, at)));
  return cutOr(status, cut, count, () => new SearchCut(count, null));
}

/** Reads masks: the names whose bits are 1, in an array that each caller gets for this mask, and none can change. */
function maskReader<Name>(names: readonly Name[]): (mask: number) => readonly Name[] {
  const known: (readonly Name[] | undefined)[] = Array.from({ length: 1 << names.length });
  return (mask) => (known[mask] ??= Object.freeze(names.filter((_, at) => ((mask >> at) & 1) === 1)));
}

const edgesIn = maskReader(EDGE_PLACES);
const cornersIn = maskReader(CORNER_PLACES);
const stepsIn = maskReader(STEPS);
const formsIn = maskReader(FORMS);

/** The cases by how many corners and edges they have, since a text of its own for each line takes longer. */
const CASES = Array.from({ length: CORNER_PLACES.length + 1 }, (_, corners) =>
  Array.from({ length: EDGE_PLACES.length + 1 }, (__, edges) => `${corners}c${edges}e`));

const caseAt = (bytes: Uint8Array, axis: number) =>
  CASES[AXIS_FACTS.read.badCorners(bytes, axis)][AXIS_FACTS.read.misplacedEdges(bytes, axis)];

const [FB, RL, UD] = AXES.map((_, at) => FACTS_ANSWER.at.axes + at * AXIS_FACTS.bytes);

function factsFrom({ answer: bytes, at }: Seen): Facts {
  const { solved, moves, cleanMoves, holds } = FACTS_ANSWER.read;
  const { badEdgePlaces, badCornerPlaces, misplacedEdgePlaces } = AXIS_FACTS.read;
  const onAxes = <Told>(tell: (axis: number) => Told) => ({ fb: tell(at + FB), rl: tell(at + RL), ud: tell(at + UD) });
  return {
    solved: solved(bytes, at) === 1,
    moves: moves(bytes, at),
    cleanMoves: cleanMoves(bytes, at),
    badEdges: onAxes((axis) => edgesIn(badEdgePlaces(bytes, axis))),
    badCorners: onAxes((axis) => cornersIn(badCornerPlaces(bytes, axis))),
    misplacedEdges: onAxes((axis) => edgesIn(misplacedEdgePlaces(bytes, axis))),
    case: onAxes((axis) => caseAt(bytes, axis)),
    holds: stepsIn(holds(bytes, at)),
  };
}

export const checkFrom = ({ answer: bytes, at }: Seen): Check => ({
  solved: CHECK_ANSWER.read.solved(bytes, at) === 1,
  moves: CHECK_ANSWER.read.moves(bytes, at),
  cleanMoves: CHECK_ANSWER.read.cleanMoves(bytes, at),
  forms: formsIn(CHECK_ANSWER.read.forms(bytes, at)),
});

export const factsIn = (reply: Seen | NoValue): Facts => factsFrom(withValue(reply));
export const checkIn = (reply: Seen | OfTwo): Check => checkFrom(withValue(reply, NAMES_OF_CHECK));

export const lineAfterIn = (reply: LineReply | OfTwo): string => withValue(reply, NAMES_OF_BEST).out;

export function bestIn(reply: BestReply, { cut }: { cut: Telling }): Best {
  const { status, ways, nodes } = withValue(reply, NAMES_OF_BEST);
  const best: Best = Object.assign(waysIn(ways), { nodes });
  // the cut of several searches together, which tells of none of them
  return cutOr(status, cut, best, () => new SearchCut({ length: null, solutions: 0, nodes }, null));
}
