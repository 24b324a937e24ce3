// The table of the steps that may follow: of each what solvers choose it by, and its counts on each side.
import { button, counted, element, grouped, part, tell, withData } from "../shared/element.js";
import {
  SIDES, isReduced, nameOfSide, stateOf, statesOf, titleOf, type OfferedStep, type Part, type Side, type Step,
} from "../shared/offered-steps.js";
import { comesSoon, type Calls } from "../shared/questions.js";
import type { Counted, Examined, Offer, Unexamined } from "../answers/examine.js";
import type { Facts } from "../../module/shared/facts.js";
import type { List } from "../state/address.js";

export type Cube = { facts: Facts; made: number; reached: Step[] };
type Opened = { step: OfferedStep; side: List["side"]; said: string; isLeast: boolean };

/** The least length, what that makes in all after moves, how many solutions make that, and a word that is only said. */
function wordsOfRow({ length, total, solutions, best }: Counted, made: number): string[] {
  if (length === null) return ["–", "", "none within 20 moves", ""];
  const [some, all] = [best, solutions].map(grouped);
  const words = best < solutions ? [`${some} of ${all}`, " solutions"] : [counted(solutions, "solution"), ""];
  return [counted(length, "move"), made > 0 ? `${total} in all, ` : "", ...words];
}

/** What solvers choose a step by: bad edges, or the case. */
export const caseOfStep = ({ badEdges, case: cases }: Facts, { axis, needs }: OfferedStep) =>
  (needs === null ? counted(badEdges[axis].length, "bad edge") : cases[axis]);

/** The cube, and the steps that may follow, each with its counts on both sides: by one question, so that none waits for
 * the page. All are shown together if they come soon. */
export async function cubeWithOffers(
  calls: Calls, typed: { text: string; parts: Part[] },
): Promise<{ cube: Examined | Unexamined; offers: Offer[] | Promise<Offer[]>; isWhole: boolean }> {
  let offers: Promise<Offer[]> = Promise.resolve([]);
  const cube = new Promise<Examined | Unexamined>((settle, refuse) => {
    offers = calls.ask("examine", typed, settle);
    offers.catch(refuse);
  });
  const isWhole = await comesSoon(offers);
  return { cube: await cube, offers: isWhole ? await offers : offers, isWhole };
}

const wordsOfAnew = (state: string) => `Going on from here, this ${state} given up`;
const areReductions = ([{ step }]: Offer[]) => step.needs !== null;

/** Whether some offers keep what is reached: each does where that is nothing, and a reduction keeps its orientation. */
const keepsReached = (offers: Offer[], reached: Step[]) =>
  reached.length === 0 || (areReductions(offers) && !isReduced(reached));

const leastOf = (offers: Offer[]) => Math.min(...offers.flatMap(({ normal, inverse, both }) =>
  [normal.length, inverse.length, both].map((length) => length ?? Infinity)));

export class StepTable {
  #focused: HTMLElement | null = null;
  #body = part("steps-body");

  constructor(private readonly chosen: (step: Step, side: List["side"]) => void) {}

  /** Dims the offers of the last cube, with all that rests on them, until those of the next one are there. */
  hold() {
    const { activeElement } = document;
    const isWithin = activeElement instanceof HTMLElement && part("choices").contains(activeElement);
    if (isWithin) this.#focused = activeElement;
    else if (activeElement !== document.body) this.#focused = null;
    part("choices").inert = true;
  }

  /** Begins with another cube, of which is told what it reaches; steps that give up a reduction are folded once. What
   * is solved has none, nor has a page that begins, which is told here too. */
  begin({ reached, facts: { solved } }: Cube) {
    const states = statesOf(reached);
    part("reached").hidden = states.length === 0;
    part("reached").replaceChildren(...(states.length === 0 ? [] : ["Reached: "]), ...states.flatMap((state) =>
      [element("span", { class: "chip", "data-marks": state }, state), " "]));
    part("no-reduction").hidden = reached.length > 0;
    const isOver = isReduced(reached) && !solved;
    if (part("steps-anew").hidden === isOver) part("steps-fold").open = !isOver;
    tell(part("steps-anew"), isOver ? wordsOfAnew("DR") : "");
  }

  /** Shows offers, a reduction before an orientation. */
  show(offers: Offer[], cube: Cube, list: List | null) {
    const groups = [true, false].map((isReduction) => offers.filter((offer) => isReduction === areReductions([offer])))
      .filter((group) => group.length > 0);
    const anew = isReduced(cube.reached) ? null : groups.find((group) => !keepsReached(group, cube.reached));
    const heading = element("tr", { class: "anew" }, element("td", { colspan: 3, class: "note" }, wordsOfAnew("EO")));
    this.#body.replaceChildren(...groups.flatMap((group) =>
      [...(group === anew ? [heading] : []), ...this.#rows(group, cube)]));
    this.mark(list);
    part("steps-table").hidden = groups.length === 0;
  }

  cell = (name: string) => withData(this.#body, "cell", name);

  /** What is said of the offers: the first of the shortest steps that are left, if there is one. */
  summary() {
    const least = this.#body.querySelector(".least")?.ariaLabel;
    return least ? `Shortest next step: ${least.replace(", shortest", "")}.` : "";
  }

  /** Gives the focus back that `hold` took: to the same cell or control, or to the heading where that is gone. */
  giveBack() {
    const held = this.#focused;
    this.#focused = null;
    // it stays where it went meanwhile; what is hidden may have it for a moment longer
    const { activeElement } = document;
    if (!held || (activeElement !== held && activeElement !== document.body)) return;
    const same = held.dataset.cell ? this.cell(held.dataset.cell) : held;
    const places = [same, part("steps-heading"), part("line-heading")];
    const mayHave = (place: HTMLElement | null) =>
      place?.isConnected && place.checkVisibility() && !place.matches(":disabled");
    places.find(mayHave)?.focus({ preventScroll: true });
  }

  mark(list: List | null) {
    if (list) part("steps-fold").open = true;
    const open = list && `${list.step}.${list.side}`;
    for (const cell of this.#body.querySelectorAll("[data-cell]")) {
      cell.setAttribute("aria-pressed", String(cell.dataset.cell === open));
    }
  }

  /** Puts the focus on the first of the shortest steps that are left. */
  focus() {
    (this.#body.querySelector<HTMLElement>(".least") ?? part("steps-heading")).focus({ preventScroll: true });
  }

  /** Presses a cell, if there is one that isn't dimmed. @param at its place among those of one side */
  press(at: number) {
    const cell = this.#body.querySelectorAll("td .cell")[at];
    if (!cell?.closest("[inert]")) cell?.click();
  }

  #rows(group: Offer[], cube: Cube) {
    const least = keepsReached(group, cube.reached) ? leastOf(group) : 0;
    // where two orientations hold, each has a way of its own to the same reduction
    const isOneOf = new Set(group.map(({ step }) => step.needs)).size > 1;
    return group.map((offer) => element("tr", { "data-marks": stateOf(offer.step) },
      element("th", { scope: "row" },
        element("span", { class: "axis" }, isOneOf ? titleOf(offer.step) : stateOf(offer.step)),
        element("small", {}, ` ${caseOfStep(cube.facts, offer.step)}`), ...this.#overBoth(offer, least)),
      ...SIDES.map((side) => this.#cell(offer, side, { least, made: cube.made }))));
  }

  #cell({ step, ...counts }: Offer, side: Side, { least, made }: { least: number; made: number }) {
    const [length, all, solutions, word] = wordsOfRow(counts[side], made);
    const words = element("small", {}, all, element("span", { class: "together" }, solutions));
    const [said, isLeast] = [`${side} side: ${length}, ${all}${solutions}${word}`, counts[side].length === least];
    return element("td", { "data-side": nameOfSide(side) }, this.#opener({ step, side, said, isLeast }, length, words));
  }

  /** The least length over both sides, if that is less than on each alone. @param least of all that may follow */
  #overBoth({ step, both }: Offer, least: number) {
    if (both === null) return [];
    const [length, words] = [counted(both, "move"), element("small", {}, " over both")];
    const said = `${length} over both sides`;
    return [" ", this.#opener({ step, side: "both", said, isLeast: both === least }, length, words)];
  }

  #opener({ step, side, said, isLeast }: Opened, length: string, words: HTMLElement) {
    return button([element("strong", {}, length), words], {
      class: isLeast ? "cell least" : "cell", "data-cell": `${step.name}.${side}`,
      "aria-label": `${titleOf(step)}, ${said}${isLeast ? ", shortest" : ""}`,
      click: () => this.chosen(step.name, side),
    });
  }
}
