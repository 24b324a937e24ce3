// What the engine at hand says of a scramble, the moves after it, the steps that may follow, and lines that are kept.
import { LONGEST_STEP } from "../state/limits.js";
import { lastOf } from "../shared/certain.js";
import { casesPassed, positionAfter, totalsWith, withoutCancelled, type Position } from "./position-after.js";
import { readOrFault, readScramble, type ReadScramble } from "./read-lines.js";
import {
  REDUCTIONS, SIDES, bracketed, isOffered, isReduced, joined, newlyReached, onOtherSides, openSteps, partOn,
  singleMoves, stepNamed, type OfferedStep, type Part, type Side, type Step,
} from "../shared/offered-steps.js";
import type { BestRow } from "../../module/shared/ways.js";
import type { FaultParts } from "../../module/shared/faults.js";
import type { Candidate, State } from "../state/address.js";
import type { Copied } from "../state/kept-lines.js";
import type { Count } from "../../module/calls/replies.js";
import type { Facts } from "../../module/shared/facts.js";
import type { Nissy } from "../../module/nissy.js";

export type View = { letters: string; facts: Facts };
export type Views = Record<Side, View>;
/** The cube after a move, and all moves up to it. */
export type Frame = { move: string; total: number; views: Views };
/** `total`: the fewest moves in all with a shortest solution, Infinity if there is none; `best`: how many make that. */
export type Counted = Count & { total: number; best: number };
/** `both`: the least length over both sides, if that is less than on each alone; after a reduction null. */
export type Offer = { step: OfferedStep; normal: Counted; inverse: Counted; both: number | null };
/** What is known of a line after each beginning, from none of its parts to all; `turns`: of each part; `passed`: the
 * case before each move of those that lead from an orientation to a reduction; `otherwise`: what a part that reaches
 * nothing would reach on the other side; `now`: the cube then. */
export type Walk = {
  parts: Part[]; facts: Facts[]; reached: Step[][]; totals: number[]; turns: number[]; passed: string[][];
  otherwise: string[][]; now: Position;
};

/** The cube after each beginning of some parts of a scramble, from none to all. @param scramble by its face turns */
const positionsOf = (nissy: Nissy, scramble: string, parts: Part[]): Position[] =>
  [...parts, null].map((_, count) => positionAfter(nissy, scramble, parts.slice(0, count)));

/** The first reduction that is reached after an orientation, and between which beginnings that lies. */
function reductionIn(reached: Step[][]) {
  const to = reached.findIndex(isReduced);
  const step = to < 1 ? undefined : REDUCTIONS.find(({ name, needs }) =>
    reached[to].includes(name) && needs !== null && reached[to - 1].includes(needs));
  if (step === undefined) return null;
  const from = reached.slice(0, to).findLastIndex((each) => step.needs !== null && !each.includes(step.needs)) + 1;
  return { step, from, to };
}

function passedBy(nissy: Nissy, parts: Part[], positions: Position[], reached: Step[][]): string[][] {
  const way = reductionIn(reached);
  return parts.map((part, at) => {
    if (way === null || at < way.from || at >= way.to) return [];
    return casesPassed(nissy, way.step.axis, positions[at].lines.normal, [part])[0];
  });
}

function reachedOtherwise(nissy: Nissy, scramble: string, before: Part[], part: Part, reached: Step[][]) {
  if (newlyReached({ reached }, before.length).length > 0) return [];
  const { holds, solved } = nissy.facts(nissy.lineAfter(scramble, bracketed([...before, onOtherSides(part)])));
  return solved ? ["solved"] : newlyReached({ reached: [reached[before.length], holds.filter(isOffered)] }, 0);
}

function walkOf(nissy: Nissy, scramble: string, parts: Part[]): Walk {
  const positions = positionsOf(nissy, scramble, parts);
  const facts = positions.map(({ lines }) => nissy.facts(lines.normal));
  const reached = facts.map(({ holds }) => holds.filter(isOffered));
  return {
    parts,
    facts,
    reached,
    totals: positions.map(({ count }) => count),
    turns: parts.map((part) => SIDES.reduce((sum, side) => sum + nissy.facts(part[side]).cleanMoves, 0)),
    passed: passedBy(nissy, parts, positions, reached),
    otherwise: parts.map((part, at) => reachedOtherwise(nissy, scramble, parts.slice(0, at), part, reached)),
    now: lastOf(positions),
  };
}

export function viewsOf(nissy: Nissy, { lines }: Position): Views {
  const viewOf = (line: string) => ({ letters: nissy.facelets(line), facts: nissy.facts(line) });
  return { normal: viewOf(lines.normal), inverse: viewOf(lines.inverse) };
}

/** `whole`: the line without brackets, clean; before the cube is solved more goes between its two sides. */
export type Examined = { read: ReadScramble; walk: Walk; views: Views; whole: string };
export type Unexamined = { unread: FaultParts };

function examined(nissy: Nissy, { text, parts }: { text: string; parts: Part[] }): Examined | Unexamined {
  const found = readOrFault(() => readScramble(nissy, text));
  if ("fault" in found) return { unread: found.fault };
  const walk = walkOf(nissy, found.value.line, parts);
  const whole = nissy.unniss(bracketed([walk.now.made]));
  const views = viewsOf(nissy, walk.now);
  return { read: found.value, walk, views, whole: views.normal.facts.solved ? withoutCancelled(nissy, whole) : whole };
}

/** The cube on both sides after the scramble and after each move of some parts. */
export function framesOf(nissy: Nissy, { scramble, parts }: { scramble: string; parts: Part[] }): Frame[] {
  const moves = singleMoves(parts);
  return positionsOf(nissy, scramble, moves).map((position, at) => (
    { move: at === 0 ? "" : bracketed([moves[at - 1]]), total: position.count, views: viewsOf(nissy, position) }));
}

function countedOn(nissy: Nissy, { name }: OfferedStep, side: Side, { lines, made, count: before }: Position): Counted {
  const count = nissy.count(name, lines[side]);
  // where no move was made none is saved, so that all of them make as many
  if (made[side] === "") return { ...count, total: before + (count.length ?? Infinity), best: count.solutions };
  const totals = totalsWith(nissy, made, nissy.solve(name, lines[side]).map(({ moves }) => partOn(side, moves)));
  const total = totals.reduce((least, each) => Math.min(least, each), Infinity);
  return { ...count, total, best: totals.filter((each) => each === total).length };
}

/** The least length of a step over both sides, null if it isn't less. @param alone the lengths on each side alone */
export function lengthOverBoth(nissy: Nissy, step: Step, now: string, alone: number[]) {
  const wanted = { sides: "both", limit: Math.min(LONGEST_STEP, ...alone) - 1, most: 1 } as const;
  return nissy.solve(step, now, wanted).at(0)?.length ?? null;
}

function offerOf(nissy: Nissy, step: OfferedStep, position: Position, reached: Step[]): Offer {
  const [normal, inverse] = SIDES.map((side) => countedOn(nissy, step, side, position));
  const alone = [normal, inverse].map(({ length }) => length ?? LONGEST_STEP);
  const both = isReduced(reached) ? null : lengthOverBoth(nissy, step.name, position.lines.normal, alone);
  return { step, normal, inverse, both };
}

/** The steps that may follow a scramble with some parts, which is told before: their tables may have to be built. */
export function examine(
  nissy: Nissy, typed: { text: string; parts: Part[] }, tell: (told: Examined | Unexamined) => void,
): Offer[] {
  const cube = examined(nissy, typed);
  tell(cube);
  if ("unread" in cube) return [];
  const [{ now }, reached] = [cube.walk, lastOf(cube.walk.reached)];
  return openSteps(reached).map((step) => offerOf(nissy, step, now, reached));
}

/** `next`: the best of the reduction that it was kept with, null if none of at most 20 moves may follow. */
export type KeptWalk = Walk & { next: BestRow | null };

/** The best of a reduction that follows a line; where two orientations hold each may lead to it. */
const bestOfReduction = (nissy: Nissy, scramble: string, parts: Part[], { axis }: OfferedStep) =>
  nissy.best(scramble, { soFar: bracketed(parts), most: Infinity })
    .find(({ dr }) => stepNamed(dr.step).axis === axis) ?? null;

export function walkKept(
  nissy: Nissy, { scramble, candidates }: { scramble: string; candidates: Candidate[] },
): KeptWalk[] {
  return candidates.map(({ parts, next }) => {
    const walk = walkOf(nissy, scramble, parts);
    const last = lastOf(walk.reached);
    const step = isReduced(last) ? undefined : openSteps(last).find(({ name }) => name === next);
    return { ...walk, next: step ? bestOfReduction(nissy, scramble, parts, step) : null };
  });
}

/** What is kept as it is copied: of each all its moves, with the first of the reduction that it was kept with. */
export const copiedOf = (nissy: Nissy, { scramble, kept }: Pick<State, "scramble" | "kept">): Copied[] =>
  walkKept(nissy, { scramble: readScramble(nissy, scramble).line, candidates: kept }).map(({ parts, next }, at) =>
    ({ ...kept[at], line: joined(...parts.map((each) => bracketed([each])), next?.dr.moves ?? "") }));

/** How many of the shortest reductions each side alone has after some steps, or null, and the cases that one passes. */
export type After = Record<Side, number | null> & { passed: string[] };

export function afterRow(
  nissy: Nissy, { scramble, parts, step, first }: { scramble: string; parts: Part[]; step: Step; first: Part },
): After {
  const { lines } = positionAfter(nissy, scramble, parts);
  const [normal, inverse] = SIDES.map((side) => nissy.count(step, lines[side]).solutions || null);
  const [passed] = casesPassed(nissy, stepNamed(step).axis, lines.normal, [first]);
  return { normal, inverse, passed };
}
