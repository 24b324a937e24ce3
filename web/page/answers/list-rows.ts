// The rows of a list: a step's solutions, twins as one, with the cases after each; after moves the fewest in all first.
import { casesPassed, lineWith, positionAfter, totalsWith } from "./position-after.js";
import { SIDES, bracketed, facesOnAxisOf, stepNamed, type Part, type Step } from "../shared/offered-steps.js";
import { mergeTwins, type Entry } from "../shared/twins.js";
import type { List } from "../state/address.js";
import type { Nissy } from "../../module/nissy.js";

/** `all`: how many there are, if they are the `whole`. */
export type Rows = { entries: Entry[]; all: number; whole: boolean };

/** How many solutions a list may have, and of how many orientations and reductions the cases are asked for. */
const MOST_LISTED = 100_000;
const MOST_WITH_CASES = 50_000;
const MOST_WITH_PASSED = 5_000;

/** Whether moves on a side end with a half turn and a turn of the opposite face, which may change places. */
function endsIdle(moves: string) {
  const [one = "", other = ""] = moves.split(" ").slice(-2);
  return one.endsWith("2") && facesOnAxisOf(one[0]).includes(other[0]);
}

/** Tells of solutions all moves with each, if moves were made before, and puts those with the fewest first. */
function withTotals(nissy: Nissy, solutions: Entry[], { scramble, parts }: Asked): Entry[] {
  if (parts.length === 0 || solutions.length > MOST_WITH_CASES) return solutions;
  const totals = totalsWith(nissy, positionAfter(nissy, scramble, parts).made, solutions);
  return solutions.map((each, at) => ({ ...each, total: totals[at] }))
    .sort((one, other) => one.total - other.total || one.length - other.length);
}

/** Tells of orientations the cases after them, and of reductions those before each move. @param now the line before */
function tellCases(nissy: Nissy, name: Step, now: string, entries: Entry[]) {
  const { needs, axis } = stepNamed(name);
  const first = entries.slice(0, needs === null ? MOST_WITH_CASES : MOST_WITH_PASSED);
  if (needs === null) {
    const facts = nissy.factsAll(first.map((each) => lineWith(nissy, now, each)), { faults: "throw" });
    first.forEach((entry, at) => Object.assign(entry, { cases: facts[at].case }));
  } else {
    const passed = casesPassed(nissy, axis, now, first);
    first.forEach((entry, at) => Object.assign(entry, { passed: passed[at] }));
  }
}

/** The solutions of a step that don't reach it before their last move; `whole`: whether these are all. */
export function solutionsOf(nissy: Nissy, { step, side, slack }: Omit<List, "isAll">, now: string) {
  const found = nissy.solve(step, now, { sides: side, slack, most: MOST_LISTED });
  return { solutions: found.filter((each) => !SIDES.some((own) => endsIdle(each[own]))), whole: !found.more };
}

export type Asked = { list: List; scramble: string; parts: Part[] };

export function rowsOfList(nissy: Nissy, asked: Asked): Rows {
  const { list, scramble, parts } = asked;
  const now = nissy.lineAfter(scramble, bracketed(parts));
  const { solutions, whole } = solutionsOf(nissy, list, now);
  const ordered = withTotals(nissy, solutions.map((each) => ({ ...each, others: [] })), asked);
  const entries = list.isAll ? ordered : mergeTwins(ordered);
  tellCases(nissy, list.step, now, entries);
  return { entries, all: solutions.length, whole };
}
