// Cubes after a scramble and steps on both sides, how many moves those that follow make in all, and their cases.
import { present } from "../shared/certain.js";
import { SIDES, joined, movesOn, onOtherSides, singleMoves, type Part, type Side } from "../shared/offered-steps.js";
import type { Axis } from "../../module/shared/facts.js";
import type { Nissy } from "../../module/nissy.js";

/** Both on each side; `lines`: what undoes the other side, the scramble, the side's moves; `count`: of all moves. */
export type Position = { lines: Part; made: Part; count: number };

/** A line with some moves more, those on the inverse side before it. */
export const lineWith = (nissy: Nissy, line: string, { normal, inverse }: Part) =>
  joined(inverse === "" ? "" : nissy.invert(inverse), line, normal);

/** All moves with each of some steps that may follow. @param made before them, clean */
export function totalsWith(nissy: Nissy, made: Part, parts: readonly Part[]): number[] {
  const linesOn = (side: Side) => parts.map((part) => joined(made[side], part[side]));
  const [normal, inverse] = SIDES.map((side) => nissy.factsAll(linesOn(side), { faults: "throw" }));
  return normal.map(({ cleanMoves }, at) => cleanMoves + inverse[at].cleanMoves);
}

/** Moves as they are written, or clean if some of them cancel. */
export function withoutCancelled(nissy: Nissy, moves: string) {
  const clean = nissy.cleanup(moves);
  return clean.length < moves.length ? clean : moves;
}

/** The cube after some steps of a scramble. @param scramble by its face turns */
export function positionAfter(nissy: Nissy, scramble: string, parts: Part[]): Position {
  const [normal, inverse] = SIDES.map((side) => withoutCancelled(nissy, movesOn(parts, side)));
  const made = { normal, inverse };
  const [count] = totalsWith(nissy, { normal: "", inverse: "" }, [made]);
  const onInverse = lineWith(nissy, nissy.invert(scramble), onOtherSides(made));
  return { lines: { normal: lineWith(nissy, scramble, made), inverse: onInverse }, made, count };
}

/** The cube before each move of a step, those on the normal side first. @param now the line before it */
const linesBefore = (nissy: Nissy, now: string, part: Part) => singleMoves([part]).map((_, at, all) => {
  const made = all.slice(0, at);
  return lineWith(nissy, now, { normal: movesOn(made, "normal"), inverse: movesOn(made, "inverse") });
});

/** The case on an axis before each move of some steps, of which one or the other is made. */
export function casesPassed(nissy: Nissy, axis: Axis, now: string, parts: readonly Part[]): string[][] {
  const ways = parts.map((part) => linesBefore(nissy, now, part));
  // many begin alike
  const lines = [...new Set(ways.flat())];
  const facts = nissy.factsAll(lines, { faults: "throw" });
  const cases = new Map(lines.map((line, at) => [line, facts[at].case[axis]]));
  return ways.map((way) => way.map((line) => present(cases.get(line))));
}
