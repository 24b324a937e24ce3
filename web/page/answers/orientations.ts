// How many orientations there are up to so many moves longer than the shortest, before they are looked at.
import { countRequest, type Sides } from "../../module/calls/requests.js";
import { positionAfter } from "./position-after.js";
import { LONGEST_STEP } from "../state/limits.js";
import { ORIENTATIONS } from "../shared/offered-steps.js";
import type { CountOfSides } from "../../module/calls/replies.js";
import type { Engine } from "../../module/engine/engine.js";
import type { Nissy } from "../../module/nissy.js";
import type { Question } from "../cards/finder.js";

/** At how many positions it looks at most to count those of an axis, which takes less than a second. */
const MOST_NODES = 8_000_000;
/** How many times more there are of one move more, if they are that many. */
const GROWTH_OF_MOVE = 20;

/** How many there are; about so many if they aren't all `counted`. */
export type Size = { count: number; counted: boolean };

/** How many there are of each length, up to so many moves more than the shortest. @param countOf null if too many */
function countsUpTo(slack: number, countOf: (length: number) => number | null): number[] {
  const counts: number[] = [];
  for (let longest = LONGEST_STEP; counts.length <= longest;) {
    const length = counts.length;
    counts.push(countOf(length) ?? GROWTH_OF_MOVE * (counts.at(-1) ?? 0));
    if (counts[length] > 0) longest = Math.min(longest, length + slack);
  }
  return counts;
}

/** The size of an axis, as the best are looked for: over both sides, and longer ones on each side alone. */
export function orientationsOn(
  nissy: Nissy, { axis, question: { scramble, parts, slack } }: { axis: number; question: Question }, _: unknown,
  engine: Engine,
): Size {
  const line = positionAfter(nissy, scramble, parts).lines.normal;
  let [nodes, counted] = [MOST_NODES, true];
  const countsOn = (sides: Sides) => countsUpTo(slack, (limit) => {
    const request = countRequest(ORIENTATIONS[axis].name, line, { limit, nodes });
    const reply = engine.answer({ ...request, call: "countSides", sides }) as CountOfSides;
    nodes -= reply.nodes;
    counted &&= !reply.isCut;
    return reply.isCut ? null : reply.solutions;
  });
  const both = countsOn("both");
  const alone = [countsOn("normal"), countsOn("inverse")].flatMap((counts) => counts.slice(both.length));
  return { count: [...both, ...alone].reduce((sum, count) => sum + count, 0), counted };
}
