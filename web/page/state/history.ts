// Where one was: what had the focus and how far the page was scrolled at each entry of the browser's history that is
// left; the way to a card and back; and the lines that were taken in this session, which lists and the best mark.
import { addressOf, fitsAddress, type List, type State } from "./address.js";
import { fieldsOf } from "../shared/certain.js";
import { part, tell } from "../shared/element.js";
import { bracketed, type Part, type Step } from "../shared/offered-steps.js";
import { howFar, leadTo } from "../shared/view.js";
import { NOT_IN_ADDRESS } from "../shared/words.js";

export type Place = { key: string; scroll: number };

/** A place that came out of the history, or null. */
export function placeIn(state: unknown): Place | null {
  const { key, scroll } = fieldsOf(state);
  return typeof key === "string" && typeof scroll === "number" ? { key, scroll } : null;
}

export const placeNow = (): Place =>
  ({ key: document.activeElement?.dataset.key ?? document.activeElement?.dataset.cell ?? "", scroll: howFar() });

/** The sheet that the entry of the history is of, 0 if that is of none, or null if it is new. */
export function sheetOfEntry(): number | null {
  const { sheet } = fieldsOf(history.state);
  return typeof sheet === "number" ? sheet : null;
}

function keepInEntry(more: Partial<Place & { sheet: number }>) {
  try {
    history.replaceState({ ...history.state, ...more }, "", location.href);
  } catch {
    // some browsers refuse it where it is done too often; then Back leads to the top
  }
}

export const keepPlace = (place = placeNow()) => keepInEntry(place);
export const keepSheet = (sheet: number) => keepInEntry({ sheet });

const AGAIN_AFTER = 1000;
let writing = 0;

export const dropAddress = () => clearTimeout(writing);

/** Puts an address into the history, a step as an entry of its own, a moment later if the browser refuses it. */
function writeAddress(address: string, isStep: boolean, sheet: number) {
  dropAddress();
  const isWritten = () => address === (location.hash || "#");
  try {
    // what may be missed later can be had back by the browser
    if (isStep && !isWritten()) history.pushState({ sheet }, "", address);
    else history.replaceState({ sheet }, "", address);
  } catch {
    // some browsers throw where it is done too often, others do nothing
  }
  if (!isWritten()) writing = setTimeout(writeAddress, AGAIN_AFTER, address, isStep, sheet);
}

/** Puts a state into the address if that has room for it. @param isStep whether Back leads to what was before */
export function writeState(state: State, isStep: boolean, sheet: number) {
  const isLong = !fitsAddress(state);
  if (isLong || part("alert").textContent === NOT_IN_ADDRESS) tell(part("alert"), isLong ? NOT_IN_ADDRESS : "");
  if (!isLong) writeAddress(addressOf(state), isStep, sheet);
}

/** The way back to where one was, as soon as that is shown. */
export class WayBack {
  #place: { key: string; scroll: number | null } | null = null;

  /** @param place without `scroll` it only comes into view */
  set(place: { key: string; scroll: number | null } | null) {
    this.#place = place;
  }

  isOn = () => this.#place !== null;

  /** Goes back, once what had the focus there is shown. */
  go(find: (key: string) => HTMLElement | null) {
    if (this.#place === null || part("choices").inert) return;
    const { key, scroll } = this.#place;
    const found = key === "" ? null : find(key);
    if (key !== "" && !found) return;
    this.#place = null;
    // whoever undoes by keys may undo more
    const stays = scroll === null && document.activeElement?.matches("button:focus-visible");
    if (!stays) found?.focus({ preventScroll: true });
    if (scroll === null) found?.scrollIntoView({ block: "nearest", behavior: "instant" });
    else scrollBy({ top: scroll - howFar(), behavior: "instant" });
  }
}

const BACK = "Back";

/** A button that leads to a card, and from there back to where one was, as long as the card is in view. */
export class WayTo {
  #words = "";
  #name = "";
  /** How far the page was scrolled, where the button leads back. */
  #scroll: number | null = null;

  constructor(private readonly button: HTMLElement, card: HTMLElement, heading: HTMLElement) {
    button.addEventListener("click", () => {
      const scroll = this.#scroll;
      this.#setScroll(scroll === null ? scrollY : null);
      if (scroll !== null) return scrollTo({ top: scroll, behavior: "instant" });
      leadTo(card, heading);
    });
    new IntersectionObserver(([{ isIntersecting }]) => isIntersecting || this.#setScroll(null)).observe(card);
  }

  /** Says what the button leads to; where that is nothing there is no button. @param name as it is said */
  show(words: string, name: string) {
    [this.#words, this.#name] = [words, name];
    this.button.hidden = words === "";
    this.#setScroll(this.#scroll);
  }

  #setScroll(scroll: number | null) {
    this.#scroll = scroll;
    this.button.textContent = scroll === null ? this.#words : BACK;
    this.button.setAttribute("aria-label", scroll === null ? this.#name : BACK);
  }
}

const nameOfSeen = (scramble: string, parts: Part[], next: Step | "") =>
  JSON.stringify([scramble, bracketed(parts), next]);

export class Seen {
  #names = new Set();
  #rows = new Map<string, { key: string; list: List | null }>();

  /** Keeps that a line was taken, from which row and beside which list, and with which step after it. */
  add({ scramble, parts, list }: State, taken: Part[], key: string, next: Step | "" = "") {
    const all = [...parts, ...taken];
    for (const step of new Set<Step | "">(["", next])) this.#names.add(nameOfSeen(scramble, all, step));
    // of a step that is split an undo leaves the half
    if (taken.length === 1) this.#rows.set(nameOfSeen(scramble, all, ""), { key, list });
  }

  /** From which row the last step was taken, and beside which list, if only it is undone; or null. */
  rowBefore({ scramble, parts }: State, left?: Part[]) {
    const before = parts.slice(0, -1);
    const isUndone = parts.length > 0 && left?.length === before.length && bracketed(left) === bracketed(before);
    return (isUndone && this.#rows.get(nameOfSeen(scramble, parts, ""))) || null;
  }

  has = (scramble: string, parts: Part[], next: Step | "" = "") => this.#names.has(nameOfSeen(scramble, parts, next));
}
