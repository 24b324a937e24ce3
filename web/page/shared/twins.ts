// Twins: solutions of a step that differ only in the direction of their last quarter turns; the same holds after each.
import { SIDES, type Part } from "./offered-steps.js";
import type { BestStep } from "../../module/shared/ways.js";
import type { Facts } from "../../module/shared/facts.js";

/** A solution; `others`: the last turns of those twins that share its row; `total`: all moves, if some were made;
 * `cases`: after an orientation; `passed`: before each move of a reduction. */
export type Entry = BestStep & { others: string[]; total?: number; cases?: Facts["case"]; passed?: string[] };

/** As solvers write it: the last turn may be the one or the other; of several twins only how many they are. */
export const wordsOfTwins = (twins: readonly string[]) =>
  (twins.length === 1 ? ` / ${twins[0].replace(/[()]/g, "")}` : ` or ${twins.length} twins`);

/** Moves on a side, and those with the last turns of twins. */
const withEnds = (moves: string[], ends: readonly string[]) =>
  [moves, ...ends.map((end) => [...moves.slice(0, moves.length - end.split(" ").length), end])];

/** The last turns on each side. @param twin those on the inverse side stand in brackets */
const endsOnSides = (twin: string): string[] => twin.replace(")", "").split(/ ?\(/);

/** The moves on each side of a step, and of its twins. @param twins their last turns */
export const sidesOfTwins = (part: Part, twins: readonly string[]) => SIDES.flatMap((side, at) => {
  const ends = new Set(twins.map((twin) => endsOnSides(twin)[at] ?? "").filter(Boolean));
  return part[side] === "" ? [] : withEnds(part[side].split(" "), [...ends]).map((each) => each.join(" "));
});

/** What twins have in common: the moves, without the direction of their last turns. */
const twinKey = (solution: BestStep) => SIDES.map((side, at) => {
  const turns = solution[side].split(" ");
  const ends = (endsOnSides(solution.twins[0] ?? "")[at] ?? "").split(" ").filter(Boolean);
  return turns.map((turn, place) => (place < turns.length - ends.length ? turn : turn.replace("'", ""))).join(" ");
}).join();

/** Puts twins together, each under the first of them. */
export function mergeTwins(solutions: readonly Entry[]): Entry[] {
  const merged = new Map<string, Entry>();
  for (const each of solutions) {
    const key = twinKey(each);
    if (!merged.has(key)) merged.set(key, { ...each, others: each.twins });
  }
  return [...merged.values()];
}
