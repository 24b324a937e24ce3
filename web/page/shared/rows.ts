// Rows of moves, in a list or a table: what is pressed in each, how they come and go, and one stop of the Tab key for
// all of them, with the arrow keys, Home and End from row to row, and from button to button within one.
import { present } from "./certain.js";
import { button, inner, part, spoken } from "./element.js";
import { saidOfCases, withCases } from "./passage.js";
import type { Part, Step } from "./offered-steps.js";

/** The rows that were pressed since moves are covered. */
const uncovered = new Set<string>();

const keptBy = new WeakMap<HTMLElement, () => boolean>();

/** What a button of a row is called, and what while the row's moves are covered: then it says nothing of them. */
const named = (open: string, covered: string) => ({ tabindex: -1, "data-open": open, "data-covered": covered });

/** What is done with the moves of a row, and known of them. @param next the reduction after them */
export type StarActs = {
  star: (button: HTMLElement, parts: Part[], next?: Step) => void;
  isStarred: (parts: Part[], next?: Step) => boolean;
  isSeen: (parts: Part[], next?: Step) => boolean;
};

/** What a row is known by, what else is said of it, the cases that it passes, and whether it was taken. */
type AboutRow = { key: string; twins?: string[]; cases?: string[]; passed?: string[]; isSeen: boolean };

export function takeButton(
  text: string, { key, twins = [], cases = [], passed = [], isSeen }: AboutRow, click: () => void,
) {
  const seen = isSeen ? ["seen"] : [];
  const told = [...cases, ...saidOfCases(passed)];
  const open = [spoken(text), ...told, ...twins, ...seen].join(", ");
  const names = named(open, ["Covered moves", ...told, ...seen].join(", "));
  const about = { class: ["take moves", ...seen].join(" "), "data-key": key, ...names, click };
  return button(withCases(text, passed), about);
}

export function starButton(text: string, isKept: () => boolean, click: (button: HTMLElement) => void) {
  const names = named(`Keep ${spoken(text)}`, "Keep the covered moves");
  const star = button("", { class: "star", ...names, click: ({ currentTarget }) => click(currentTarget) });
  keptBy.set(star, isKept);
  return star;
}

/** Shows of rows what may change: whether they are kept, and whether their moves are covered. */
export function refreshRows(rows: ParentNode) {
  const areCovered = document.body.matches(".covers");
  for (const take of takesOf(rows)) {
    const isOpen = uncovered.has(keyOf(take));
    take.classList.toggle("uncovered", isOpen);
    const name = areCovered && !isOpen ? "data-covered" : "data-open";
    for (const each of buttonsOf(rowOf(take))) each.setAttribute("aria-label", each.getAttribute(name) ?? "");
  }
  for (const star of rows.querySelectorAll(".star")) {
    const isKept = keptBy.get(star)?.() ?? false;
    star.setAttribute("aria-pressed", String(isKept));
    star.textContent = isKept ? "★" : "☆";
  }
}

/** Lets moves be covered, for a class: the first press of a row shows its moves, and the next one takes them. */
export function offerCover() {
  const field = part("cover");
  field.addEventListener("change", () => {
    uncovered.clear();
    document.body.classList.toggle("covers", field.checked);
    refreshRows(part("choices"));
  });
  addEventListener("click", (event) => {
    const take = event.target instanceof Element ? event.target.closest(".covers .take:not(.uncovered)") : null;
    if (!(take instanceof HTMLElement)) return;
    event.stopPropagation();
    uncovered.add(keyOf(take));
    refreshRows(rowOf(take));
  }, { capture: true });
}

const ROWS: Record<string, number> = { ArrowDown: 1, ArrowUp: -1, PageDown: 10, PageUp: -10 };
const BUTTONS: Record<string, number> = { ArrowRight: 1, ArrowLeft: -1 };

const rowOf = (node: Element) => present(node.closest("li, tr")) as HTMLElement;
const buttonsOf = (row: ParentNode) => [...row.querySelectorAll("button")];
const takesOf = (holder: ParentNode) => [...holder.querySelectorAll(".take")];
const takeOf = (row: HTMLElement) => inner(row, ".take");
const keyOf = (take: HTMLElement) => take.dataset.key ?? "";
const nearest = (list: HTMLElement[], place: number) => list[Math.min(list.length - 1, Math.max(0, place))];

/** The button that a key leads to from another one, or null. */
function buttonAfter(key: string, from: HTMLElement, holder: HTMLElement) {
  const [row, takes] = [rowOf(from), takesOf(holder)];
  if (key === "Home") return takes[0];
  if (key === "End") return takes[takes.length - 1];
  if (Object.hasOwn(ROWS, key)) return nearest(takes, takes.indexOf(takeOf(row)) + ROWS[key]);
  if (!Object.hasOwn(BUTTONS, key)) return null;
  const buttons = buttonsOf(row);
  return nearest(buttons, buttons.indexOf(from) + BUTTONS[key]);
}

export function roveWithin(holder: HTMLElement) {
  holder.addEventListener("keydown", (event) => {
    if (event.ctrlKey || event.altKey || event.metaKey) return;
    const next = buttonAfter(event.key, event.target, holder);
    if (next === null) return;
    event.preventDefault();
    next.focus();
  });
  holder.addEventListener("focusin", ({ target }) => {
    for (const other of holder.querySelectorAll('.take[tabindex="0"]')) other.setAttribute("tabindex", "-1");
    takeOf(rowOf(target)).setAttribute("tabindex", "0");
  });
}

/** The button that takes the moves of a row, by what that is known by; or null. */
export const takeNamed = (holder: HTMLElement, key: string) =>
  takesOf(holder).find((take) => keyOf(take) === key) ?? null;

export function addRows(holder: HTMLElement, rows: HTMLElement[]) {
  holder.append(...rows);
  for (const row of rows) refreshRows(row);
}

/** Has rows put into a holder, of which one is a stop of the Tab key. The same row keeps the focus; if it is gone
 * the first has it, or what is given. */
export function showRows(holder: HTMLElement, put: () => void, otherwise: HTMLElement) {
  const focused = document.activeElement;
  const isWithin = focused instanceof HTMLElement && holder.contains(focused);
  const row = isWithin ? rowOf(focused) : null;
  const [key, place] = isWithin && row ? [keyOf(takeOf(row)), buttonsOf(row).indexOf(focused)] : ["", 0];
  put();
  const [first] = takesOf(holder);
  if (!holder.querySelector('.take[tabindex="0"]')) first?.setAttribute("tabindex", "0");
  if (row === null || holder.contains(document.activeElement)) return;
  const same = takeNamed(holder, key);
  (same ? buttonsOf(rowOf(same))[place] : first ?? otherwise).focus({ preventScroll: true });
}
