// Lines that are kept beside each other: nets with what is left to do, how many steps follow, the first of the best.
import { button, counted, element, grouped, inner, part, spoken } from "../shared/element.js";
import {
  SIDES, bracketed, furthestOf, isOffered, nameOfSide, stateOf, statesOf, stepNamed, type Part, type Side,
} from "../shared/offered-steps.js";
import { showMarked } from "./cube.js";
import { emptyNet } from "./net.js";
import { caseOfStep } from "./step-table.js";
import { NO_STEP_AFTER_DR } from "../shared/words.js";
import type { Compared, Counts } from "../answers/compare.js";
import type { BestRow } from "../../module/shared/ways.js";
import type { View } from "../answers/examine.js";

export const MOST_COMPARED = 4;

/** `next`: the best of the reduction that it was kept with. */
type ComparedLine = { parts: Part[]; note: string; next: BestRow | null; goOn: () => void };

function netOf(side: Side, view: View, choice: string) {
  const net = emptyNet();
  const words = showMarked(net, side, view, choice);
  return element("figure", {}, net, element("figcaption", {}, `${nameOfSide(side)}${words}`));
}

/** Such as `8 ×4, 9 ×31`. */
const wordsOf = (counts: Counts) => [...counts].flatMap(([length, count], at) => [at === 0 ? "" : ", ",
  element("span", { class: "together" }, `${length} ×${grouped(count)}`)]);

function followingOf({ steps, views: { normal: { facts } } }: Compared) {
  if (steps.length === 0) return element("p", { class: "note" }, facts.solved ? "" : `${NO_STEP_AFTER_DR}.`);
  const head = SIDES.map((side) => element("th", { scope: "col" }, nameOfSide(side)));
  const rows = steps.map(({ step, counts, both }) => element("tr", {},
    element("th", { scope: "row" }, stateOf(step), element("small", {}, ` ${caseOfStep(facts, step)}`),
      ...(both === null ? [] : [element("small", {}, ` ${both} over both`)])),
    ...SIDES.map((side) => element("td", {}, ...wordsOf(counts[side])))));
  return element("table", {},
    element("thead", {}, element("tr", {}, element("td"), ...head)), element("tbody", {}, ...rows));
}

function itemOf({ parts, note, next, goOn }: ComparedLine, compared: Compared) {
  const [{ views, total }, first] = [compared, next ?? compared.first];
  const { solved, holds } = views.normal.facts;
  const reached = solved ? ["solved"] : furthestOf(statesOf(holds.filter(isOffered)));
  const choice = first === null ? "" : stateOf(stepNamed((first.eo ?? first.dr).step));
  const then = first === null ? [] : ["Best way on: ", element("span", { class: "moves" }, first.line),
    `, ${stateOf(stepNamed(first.dr.step))}, ${first.total} in all`];
  const close = () => {
    part("comparison").close();
    goOn();
  };
  return element("li", {},
    element("h3", { class: "moves" }, bracketed(parts)),
    element("p", { class: "total" }, [counted(total, "move"), ...reached].join(", ")),
    element("div", { class: "nets" }, ...SIDES.map((side) => netOf(side, views[side], choice))),
    followingOf(compared),
    element("p", {}, ...then),
    element("p", { class: "note" }, note),
    button("Go on", { class: "quiet", "aria-label": `Go on: ${spoken(bracketed(parts))}`, click: close }));
}

const movesOf = (parts: Part[]) => element("span", { class: "moves" }, bracketed(parts));

/** At which step the lines part, and what they begin with. */
function partingOf([{ parts }, ...others]: ComparedLine[]) {
  const isAlike = (each: Part, at: number) => others.every((other) =>
    bracketed(other.parts.slice(at, at + 1)) === bracketed([each]));
  const count = [...parts, null].findIndex((each, at) => each === null || !isAlike(each, at));
  if (count === 0) return ["They part at the first step. "];
  return [`They part at step ${count + 1}, after `, movesOf(parts.slice(0, count)), ". "];
}

/** Which lines take the fewest moves, each with its best way on; what is solved is none of those that go on. */
function fewestOf(lines: ComparedLine[], told: Compared[]) {
  const ends = lines.map(({ next }, at) => (next ?? told[at].first)?.total ?? told[at].total);
  const [isSolved, ...others] = told.map(({ views }) => views.normal.facts.solved);
  if (others.some((other) => other !== isSolved)) return [];
  const least = Math.min(...ends);
  const shortest = lines.filter((_, at) => ends[at] === least);
  const moves = `${isSolved ? "" : " up to a DR"}: ${counted(least, "move")}`;
  if (shortest.length === lines.length) return [`All take as many${moves} in all.`];
  return [`Fewest${moves} in all, with `,
    ...shortest.flatMap(({ parts }, at) => [at === 0 ? "" : ", or with ", movesOf(parts)]), "."];
}

export function compare(lines: ComparedLine[], told: Compared[]) {
  part("comparison-said").replaceChildren(...partingOf(lines), ...fewestOf(lines, told));
  inner(part("comparison"), ".note").hidden = told.every(({ steps }) => steps.length === 0);
  part("comparison-lines").replaceChildren(...lines.map((line, at) => itemOf(line, told[at])));
  part("comparison").showModal();
}
