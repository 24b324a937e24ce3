// The steps that the page offers, by the engine's names: an orientation of the edges on an axis, and after it a domino
// reduction on one of the other two; what they are called here, and the numbers that solvers choose them by; and the
// parts of a line, each a step on one side or both.
import { AXES, type Axis } from "../../module/shared/facts.js";
import { SIDES, joined, type Moves as Part, type Side } from "../../module/shared/sides.js";
import { STEPS, startOf, type Step } from "../../module/shared/steps.js";
import { present } from "./certain.js";

export { SIDES, bracketed, joined, otherSide, type Moves as Part, type Side } from "../../module/shared/sides.js";
export type { Step } from "../../module/shared/steps.js";

/** Of a reduction `needs` is the orientation that it keeps. */
export type OfferedStep = { name: Step; axis: Axis; needs: Step | null };

/** The two faces of the axis that a face is on, the empty text if it is none. */
export const facesOnAxisOf = (face: string) =>
  AXES.map((axis) => axis.toUpperCase()).find((faces) => faces.includes(face)) ?? "";

/** The steps that name an axis, such as `eofb` and `drud-eofb`. */
const OFFERED: readonly OfferedStep[] = STEPS.flatMap((name) =>
  AXES.filter((axis) => axis === name.slice(2, 4)).map((axis) => ({ name, axis, needs: startOf(name) })));

export const ORIENTATIONS = OFFERED.filter(({ needs }) => needs === null);
export const REDUCTIONS = OFFERED.filter(({ needs }) => needs !== null);

export const isOffered = (name: string): name is Step => OFFERED.some((step) => step.name === name);
export const isReduction = (name: string): name is Step => REDUCTIONS.some((step) => step.name === name);
export const stepNamed = (name: Step): OfferedStep => present(OFFERED.find((step) => step.name === name));
export const reductionsAfter = (orientation: Step) => REDUCTIONS.filter(({ needs }) => needs === orientation);
export const isSide = (name: string): name is Side => SIDES.some((side) => side === name);

/** An axis as solvers write it, such as `F/B`. */
export const axisName = (axis: Axis) => [...axis.toUpperCase()].join("/");

export const namesOf = (steps: readonly OfferedStep[]) => steps.map(({ name }) => name);

/** What holds once a step is reached, such as `EO F/B`. */
export const stateOf = (step: OfferedStep) => `${step.needs === null ? "EO" : "DR"} ${axisName(step.axis)}`;

/** What may be reached by a reduction where some orientations hold. */
export const reducedAfter = (orientations: Step[]) =>
  [...new Set(orientations.flatMap(reductionsAfter).map(stateOf))];

export const titleOf = (step: OfferedStep) =>
  stateOf(step) + (step.needs === null ? "" : ` after ${stateOf(stepNamed(step.needs))}`);

/** The steps that may start where others are reached, and aren't reached themselves. */
export const openSteps = (reached: Step[]) =>
  OFFERED.filter(({ name, needs }) => !reached.includes(name) && (needs === null || reached.includes(needs)));

export const statesOf = (reached: Step[]) => [...new Set(reached.map((name) => stateOf(stepNamed(name))))];
export const isReduced = (reached: Step[]) => reached.some(isReduction);

/** Of what holds only the reductions, which say the orientations that hold with them; all if there are none. */
export function furthestOf(states: string[]) {
  const reductions = states.filter((state) => state.startsWith("DR"));
  return reductions.length > 0 ? reductions : states;
}

/** What a step of a line newly reaches. */
export function newlyReached({ reached }: { reached: Step[][] }, index: number) {
  const before = statesOf(reached[index]);
  return furthestOf(statesOf(reached[index + 1]).filter((state) => !before.includes(state)));
}

/** The same as it is said of a step: of one that solves, only that. */
export const saidToBeReached = (walk: { reached: Step[][]; facts: { solved: boolean }[] }, index: number) =>
  (walk.facts[index + 1].solved ? ["solved"] : newlyReached(walk, index));

export const nameOfSide = (side: Side) => (side === "normal" ? "Normal" : "Inverse");

export const onOtherSides = ({ normal, inverse }: Part): Part => ({ normal: inverse, inverse: normal });

/** The moves of what may have more than these. */
export const partOf = ({ normal, inverse }: Part): Part => ({ normal, inverse });

export const partOn = (side: Side, moves: string): Part => ({ normal: "", inverse: "", [side]: moves });

export const movesOn = (parts: readonly Part[], side: Side) => joined(...parts.map((each) => each[side]));

/** The moves of some steps, each as a step: of each those on the normal side first. */
export const singleMoves = (parts: readonly Part[]): Part[] => parts.flatMap((part) =>
  SIDES.flatMap((side) => part[side].split(" ").filter(Boolean).map((turn) => partOn(side, turn))));

/** On which sides a step has moves; the normal one if it has none. */
export function sidesOf({ normal, inverse }: Part): Side | "both" {
  if (normal !== "" && inverse !== "") return "both";
  return inverse === "" ? "normal" : "inverse";
}

/** On which side one goes on after a step on some sides: on the normal one, but for a step on the inverse alone. */
export const sideAfter = (sides: Side | "both"): Side => (sides === "inverse" ? "inverse" : "normal");
export const lastSideOf = (part: Part) => sideAfter(sidesOf(part));

/** How far a case such as `4c2e` is, to sort by: an edge costs about as much as a corner. */
export const farnessOf = (name: string) => (name.match(/\d+/g) ?? []).reduce((sum, count) => sum + Number(count), 0);
