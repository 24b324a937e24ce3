// A row of the best: its moves with their twins, what they reach, the reduction that follows with its least length on
// each side alone and how many of that length there are, and its star.
import { counted, element, grouped, inner, type Attributes } from "../shared/element.js";
import { triggerOf, withCases } from "../shared/passage.js";
import { starButton, takeButton, type StarActs } from "../shared/rows.js";
import { SIDES, bracketed, sidesOf, type Part, type Side, type Step } from "../shared/offered-steps.js";
import { wordsOfTwins } from "../shared/twins.js";
import type { After } from "../answers/examine.js";
import type { Next, Row } from "./finder.js";

export type RowActs = StarActs & { goOn: (row: Row) => void };

/** How many signs the style adds to a row that was seen, and how wide a sign of a twin is beside one of the moves. */
const SEEN_SIGNS = 2;
const SIGN_OF_TWIN = 0.9;
/** How many signs are as wide as the case of a trigger, with some room, which it has before it is known. */
const SIGNS_OF_TRIGGER = 6;

/** A cell whose role stays where a narrow page lays the row out as a grid. */
function cell(name: "td" | "th", attributes: Attributes, ...children: (Node | string)[]) {
  const role = name === "th" ? { role: "rowheader", scope: "row" } : { role: "cell" };
  return element(name, { ...role, ...attributes }, ...children);
}

/** The cell of a row's moves and twins, and of the reduction after them; it tells the style how many signs it has. */
function movesCell(take: HTMLElement, line: string, twins: string[], next: Next | null) {
  const words = wordsOfTwins(twins);
  const twin = twins.length === 0 ? [] : [element("small", { class: "twins" }, words)];
  const below = next === null ? [] : [...twin, firstOf(next)];
  const made = cell("td", {}, element("span", { class: "ends" }, take, ...(next === null ? twin : [])), ...below);
  const seen = take.classList.contains("seen") ? SEEN_SIGNS : 0;
  // where it is narrow twins stand beside the moves, but for those of a reduction
  const beside = next !== null && twins.length > 0 ? SIGN_OF_TWIN * words.length : 0;
  made.style.setProperty("--signs", String(line.length + seen + beside));
  made.style.setProperty("--beside", String(beside));
  return made;
}

function lengthCell({ part: reduction, length: best, lengths }: Next, side: Side) {
  const length = lengths[side];
  const isBest = length !== null && (length === best || sidesOf(reduction) === side);
  const words = length === null ? "no DR" : `DR in ${counted(length, "move")}`;
  const about = {
    class: isBest ? "best number" : "number", "data-side": side === "normal" ? "N" : "I", title: `${side} side alone`,
    "aria-label": `${words} on the ${side} side alone`,
  };
  return cell("td", about, length === null ? "–" : String(length), element("small", { class: "times" }));
}

/** Shows in a row how many of the shortest reductions there are on each side alone, and how the first one goes. */
export function tellAfter(shown: Element, { next }: Row, after: After) {
  if (next) inner(shown, ".first").replaceChildren(...wordsOfFirst(next, after.passed));
  shown.querySelectorAll(".number").forEach((each, at) => {
    const [count, times] = [after[SIDES[at]], inner(each, ".times")];
    if (count === null || times.textContent !== "") return;
    times.textContent = `×${grouped(count)}`;
    each.setAttribute("aria-label", `${each.getAttribute("aria-label")}, ${counted(count, "solution")}`);
  });
}

/** The moves of a reduction, after its length if it goes over both sides, since no column has that. */
function wordsOfFirst({ part: reduction, length }: Next, passed: string[]) {
  const moves = bracketed([reduction]);
  const best = element("span", { class: "best", title: "over both sides" }, String(length));
  const before = sidesOf(reduction) === "both" ? [best, ": "] : [];
  return moves === "" ? [] : ["then ", ...before, ...withCases(moves, passed)];
}

function firstOf(next: Next) {
  const first = element("small", { class: "first moves" }, ...wordsOfFirst(next, []));
  first.style.setProperty("--signs", String(first.textContent.length + SIGNS_OF_TRIGGER));
  return first;
}

export function bestRow(row: Row, acts: RowActs) {
  const { total, part: added, state, next, twins, key, passed } = row;
  const line = bracketed([added]) || "no moves";
  const kept: [Part[], Step | undefined] = [[added], next?.step];
  const take = takeButton(line, { key, passed, isSeen: acts.isSeen(...kept) }, () => acts.goOn(row));
  // one orientation has a row, and a star, for each reduction that may follow
  const whole = next ? `${line}, ${next.marks} ${next.case}` : line;
  const star = starButton(whole, () => acts.isStarred(...kept), (button) => acts.star(button, ...kept));
  const axis = cell("td", { class: "axis", "data-trigger": triggerOf(passed) }, state);
  const cells = [cell("th", {}, String(total)), movesCell(take, line, twins, next), axis];
  if (next) {
    cells.push(cell("td", { class: "axis" }, next.marks, " ", element("span", { class: "case" }, next.case)));
    cells.push(...SIDES.map((side) => lengthCell(next, side)));
  }
  return element("tr", { role: "row", "data-marks": state }, ...cells, cell("td", {}, star));
}
