// What lines that are compared lead to, by the engine at hand.
import { positionAfter } from "./position-after.js";
import { solutionsOf } from "./list-rows.js";
import { lengthOverBoth, viewsOf, type Views } from "./examine.js";
import {
  bracketed, isOffered, isReduced, openSteps, type OfferedStep, type Part, type Side, type Step,
} from "../shared/offered-steps.js";
import type { BestRow } from "../../module/shared/ways.js";
import type { Nissy } from "../../module/nissy.js";

/** How many solutions there are of each length. */
export type Counts = Map<number, number>;
/** `steps`: those that follow, a reduction as soon as one may; `first`: the best way on; `total`: all moves. */
export type Compared = {
  views: Views; steps: ReturnType<typeof stepAfter>[]; first: BestRow | null; total: number;
};

/** How many there are on a side of the least length, and of one move more. */
function countsOf(nissy: Nissy, step: OfferedStep, side: Side, now: string): Counts {
  const counts: Counts = new Map();
  const { solutions } = solutionsOf(nissy, { step: step.name, side, slack: 1 }, now);
  for (const { length } of solutions) counts.set(length, (counts.get(length) ?? 0) + 1);
  return counts;
}

function stepAfter(nissy: Nissy, step: OfferedStep, now: string) {
  const counts = { normal: countsOf(nissy, step, "normal", now), inverse: countsOf(nissy, step, "inverse", now) };
  const alone = [...counts.normal.keys(), ...counts.inverse.keys()];
  return { step, counts, both: lengthOverBoth(nissy, step.name, now, alone) };
}

function stepsAfter(reached: Step[]) {
  const open = isReduced(reached) ? [] : openSteps(reached);
  const reductions = open.filter(({ needs }) => needs !== null);
  return reductions.length > 0 ? reductions : open;
}

function compared(nissy: Nissy, scramble: string, parts: Part[]): Compared {
  const position = positionAfter(nissy, scramble, parts);
  const views = viewsOf(nissy, position);
  const steps = stepsAfter(views.normal.facts.holds.filter(isOffered));
  const [first = null] = steps.length === 0 ? [] : nissy.best(scramble, { soFar: bracketed(parts), most: 1 });
  const told = steps.map((step) => stepAfter(nissy, step, position.lines.normal));
  return { views, steps: told, first, total: position.count };
}

export const compareLines = (nissy: Nissy, { scramble, lines }: { scramble: string; lines: Part[][] }) =>
  lines.map((parts) => compared(nissy, scramble, parts));
