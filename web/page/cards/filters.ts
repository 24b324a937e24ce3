// What is left of rows: by what is chosen, by the cases that are pressed, by turns that are typed, by the last.
import { announce, announceLater, button, counted, element, grouped, inner, part, tell } from "../shared/element.js";
import {
  ORIENTATIONS, facesOnAxisOf, farnessOf, namesOf, reducedAfter, sidesOf, stateOf,
} from "../shared/offered-steps.js";
import { triggerOf } from "../shared/passage.js";
import type { Row } from "./finder.js";

/** Of a filter: its field, and what says by the value of that whether a row is left; null if it can't be read. */
export type Kind<Row> = { field: string; test: (value: string) => ((row: Row) => boolean) | null };

export const NOT_MOVES = "The text in the filter is not moves: type face turns such as F B'.";

export function offerMoves(name: string, most: number) {
  const counts = Array.from({ length: most + 1 }, (_, count) => count);
  part(name).append(...counts.map((count) => element("option", { value: count }, counted(count, "move"))));
}

/** What is chosen in a field. @param choices beside the first one, which leaves all */
function chosen<Row>(field: string, choices: string[], isLeft: (row: Row, choice: string) => boolean): Kind<Row> {
  part(field).append(...["", ...choices].map((value) => element("option", { value }, value || "any")));
  return { field, test: (value) => (row) => value === "" || isLeft(row, value) };
}

/** The cases that are pressed, which a field without a place of its own holds. */
const pressedIn = (value: string) => value.split(" ").filter(Boolean);

/** Rows with one of the cases that are pressed. @param field beside which their chips stand */
export function ofCases<Row>(field: string, casesOf: (row: Row) => string[]): Kind<Row> {
  const test = (value: string) => {
    const pressed = pressedIn(value);
    return (row: Row) => pressed.length === 0 || casesOf(row).some((each) => pressed.includes(each));
  };
  return { field, test };
}

/** Offers cases as chips if they are several, each with how many rows have it, the nearest first; pressed ones stay. */
export function offerCases(name: string, all: string[][]) {
  const [field, chips] = [part(name), part(`${name}-chips`)];
  const pressed = pressedIn(field.value);
  const counts = new Map(pressed.map((each) => [each, 0]));
  for (const each of all.flatMap((cases) => [...new Set(cases)])) counts.set(each, (counts.get(each) ?? 0) + 1);
  const names = [...counts.keys()].sort((one, other) => farnessOf(one) - farnessOf(other));
  chips.parentElement?.toggleAttribute("hidden", names.length < 2 && pressed.length === 0);
  const focused = document.activeElement?.closest(`#${chips.id} button`)?.dataset.case;
  chips.replaceChildren(...names.map((each) => {
    const isPressed = pressed.includes(each);
    const press = () => {
      field.value = (isPressed ? pressed.filter((other) => other !== each) : [...pressed, each]).join(" ");
      field.dispatchEvent(new Event("input"));
    };
    const about = { class: "quiet chip", "data-case": each, "aria-pressed": String(isPressed), click: press };
    const count = counts.get(each) ?? 0;
    return button([element("span", { class: "case" }, each), ` ${grouped(count)}`],
      { "aria-label": `${each}, ${counted(count, "row")}`, ...about });
  }));
  if (focused) inner(chips, `[data-case="${focused}"]`).focus({ preventScroll: true });
}

/** Turns as the lists have them: those of opposite faces, which may stand in either order, as their axis names them. */
function inListOrder(turns: string[]) {
  const ordered = [...turns];
  for (let at = 1; at < ordered.length; at++) {
    const [one, other] = [ordered[at - 1], ordered[at]];
    if (facesOnAxisOf(one[0]) === other[0] + one[0]) ordered.splice(at - 1, 2, other, one);
  }
  return ordered;
}

/** The face turns that are typed, or null if the text isn't moves. */
function turnsOf(text: string): string[] | null {
  const plain = text.replace(/[\u2019\u2032\u00B4\u0060]/g, "'").toUpperCase();
  if (!/^\s*(?:[UDRLFB](?:2'?|')?\s*)*$/.test(plain)) return null;
  return inListOrder((plain.match(/[UDRLFB][2']*/g) ?? []).map((turn) => turn.replace("2'", "2")));
}

/** Turns that stand one after another. @param movesOf the moves on each side of a row and its twins */
export function withTurns<Row>(field: string, movesOf: (row: Row) => string[]): Kind<Row> {
  const test = (text: string) => {
    const wanted = turnsOf(text);
    part(field).setAttribute("aria-invalid", String(wanted === null));
    if (wanted === null) return null;
    const turns = wanted.length === 0 ? "" : ` ${wanted.join(" ")} `;
    return (row: Row) => movesOf(row).some((each) => ` ${each} `.includes(turns));
  };
  return { field, test };
}

const WHERE = ["normal", "inverse", "both sides"];
const isOn = ({ part: step }: Row, where: string) => sidesOf(step) === where.replace(" sides", "");

/** The case of a row of the best: before the reduction after an orientation, or from which its own trigger goes. */
export const casesOfBest = ({ next, passed }: Row) =>
  (next === null ? [triggerOf(passed)].filter(Boolean) : [next.case]);

/** The filters of the best, of which the first is one of reductions too. */
export const filtersOfBest = () => [
  ofCases<Row>("best-cases", casesOfBest),
  chosen<Row>("best-axis", ORIENTATIONS.map(stateOf), ({ state }, axis) => state === axis),
  chosen("best-side", WHERE, isOn),
  chosen<Row>("best-next", reducedAfter(namesOf(ORIENTATIONS)), ({ next }, marks) => next?.marks === marks),
];

/** The filters of a card; a button, which says how many of them are on, clears them. */
export class Filters<Row> {
  /** @param changed says whether there are rows that may be left */
  constructor(private readonly name: string, note: HTMLElement, public kinds: Kind<Row>[], changed: () => boolean) {
    for (const field of this.#fields()) {
      if (!field.matches("input")) field.addEventListener("change", changed);
      // once nothing more is typed it is said what is left
      else field.addEventListener("input", () => changed() && announceLater(note.textContent));
    }
    part(`${name}-clear`).addEventListener("click", () => {
      // what is hidden can't keep the focus
      const [first] = this.#fields();
      (first.closest("details")?.querySelector("summary") ?? first).focus({ preventScroll: true });
      this.clear();
      if (changed()) announce(note.textContent);
    });
  }

  clear() {
    for (const field of this.#fields()) field.value = "";
  }

  /** What is left of rows, or null if a field can't be read. */
  left(rows: Row[]): Row[] | null {
    const tests = this.kinds.map(({ field, test }) => test(part(field).value));
    const read = tests.flatMap((test) => test ?? []);
    return read.length < tests.length ? null : rows.filter((row) => read.every((test) => test(row)));
  }

  /** How many fields leave not all. */
  get count() {
    return this.#fields().filter(({ value }) => value.trim() !== "").length;
  }

  show() {
    tell(part(`${this.name}-clear`), this.count === 0 ? "" : `Clear ${counted(this.count, "filter")}`);
  }

  #fields() {
    return this.kinds.map(({ field }) => part(field));
  }
}
