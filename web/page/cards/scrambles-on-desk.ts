// The desk as the page has it: a strip with a link to each scramble; how what is shown comes there, and back.
import { copy } from "../shared/copying.js";
import { announce, counted, element, part, tell } from "../shared/element.js";
import { addressOf, emptyState, type State } from "../state/address.js";
import { Desk, stateOfSheet, textOfDesk, type NewSheet, type Sheet } from "../state/desk.js";
import { keepPlace, keepSheet, placeNow, sheetOfEntry, writeState, type Place } from "../state/history.js";
import { joinedStates } from "../state/kept-lines.js";
import { tellAt } from "../shared/view.js";

const NOT_KEPT = "This browser keeps nothing of what is done here: take it along by Copy all.";

/** `place`: where one was, if the address doesn't say; `written`: where it stands in a text, if it isn't opened yet. */
type Arrived = { state: State; place: Place | null; written: Sheet["written"] };

/** Whether Back leads to what was before; where one was; whether a scramble came by chance, or is a draft: no sheet. */
export type Keeping = { isStep: boolean; place?: Place | null; isDrawn?: boolean; isDraft?: boolean };

function chipOf(sheet: Sheet, at: number, isShown: boolean) {
  const { scramble, kept } = stateOfSheet(sheet);
  const about = kept.length === 0 ? "" : `, ${counted(kept.length, "line")} kept`;
  return element("a", {
    href: sheet.address, class: "chip", title: scramble, "aria-label": `Scramble ${at + 1}: ${scramble}${about}`,
    ...(isShown && { "aria-current": "page" }),
  }, String(at + 1), ...(kept.length === 0 ? [] : [element("small", {}, ` ★${kept.length}`)]));
}

export class DeskStrip {
  #desk = new Desk();
  #chips = part("desk-chips");

  constructor(begin: () => void) {
    part("desk").addEventListener("click", ({ target }) => {
      if (target instanceof Element && target.closest("a")) this.leave();
    });
    part("desk-new").addEventListener("click", begin);
    part("copy-desk").addEventListener("click", ({ currentTarget }) =>
      copy(textOfDesk(this.#desk.sheets), currentTarget));
    part("desk-remove").addEventListener("click", () => this.#remove());
    // another page changed it
    addEventListener("storage", () => {
      this.#desk.readAgain();
      this.show();
    });
  }

  /** Turns to what an address says, and to what was done with its scramble. */
  arrive(read: State): Arrived {
    const [before, sheet] = [sheetOfEntry(), this.#desk.turnTo(read.scramble, sheetOfEntry())];
    this.show();
    if (sheet === null) return { state: read, place: null, written: null };
    const [own, { written }] = [stateOfSheet(sheet), sheet];
    // what the history had for the sheet takes no line that is kept away
    if (sheet.id === before) return { state: { ...read, kept: own.kept }, place: null, written };
    return { state: joinedStates(own, read), place: sheet.place, written };
  }

  /** Has the desk hold what an address led to, and the address too if more than that is shown. */
  settle(read: State, state: State) {
    this.#hold(state, false);
    if (addressOf(state) !== addressOf(read)) writeState(state, false, this.#desk.shown?.id ?? 0);
    else keepSheet(this.#desk.shown?.id ?? 0);
  }

  keep(state: State, { isStep, place = null, isDrawn = false, isDraft = false }: Keeping) {
    if (place) keepPlace(place);
    if (!isDraft) this.#hold(state, isDrawn);
    writeState(state, isStep, this.#desk.shown?.id ?? 0);
  }

  #hold(state: State, isDrawn: boolean) {
    this.#desk.keep(state, isDrawn);
    this.show();
  }

  /** Keeps where one is, since another scramble is about to be shown. */
  leave() {
    keepPlace();
    this.#desk.leave(placeNow());
  }

  /** Shows what the desk has of a scramble. */
  begin(scramble: string): State {
    this.leave();
    const sheet = this.#desk.turnTo(scramble);
    return { ...(sheet ? stateOfSheet(sheet) : emptyState()), scramble };
  }

  add(sheets: NewSheet[]) {
    if (sheets.length === 0) return;
    const [before, left] = [this.#desk.sheets.length, this.#desk.add(sheets)];
    const count = counted(this.#desk.sheets.length - before, before === 0 ? "scramble" : "more scramble");
    this.show();
    if (left > 0) tell(part("desk-note"), `The desk is full: ${counted(left, "scramble")} had no room.`);
    else announce(`${count} ${/^1 /.test(count) ? "is" : "are"} on the desk.`);
  }

  /** Takes the scrambles of another page, and shows the first one. */
  take(sheets: NewSheet[]) {
    this.leave();
    this.add(sheets);
    location.hash = addressOf(sheets[0].state);
  }

  /** Shows what is on the desk, if that is more than what the page shows. */
  show() {
    const { sheets, shown, isKept } = this.#desk;
    const { children } = this.#chips, focused = [...children].findIndex((each) => each === document.activeElement);
    const chips = sheets.map((each, at) => chipOf(each, at, each === shown));
    if (chips.length !== children.length) this.#chips.replaceChildren(...chips);
    // those that stay as they are stay where they are too, since the press that ends a note may be on one
    else for (const [at, each] of chips.entries()) if (!each.isEqualNode(children[at])) children[at].replaceWith(each);
    const chip = children[focused];
    if (chip instanceof HTMLElement) chip.focus({ preventScroll: true });
    part("desk").hidden = sheets.length < (shown !== null && isKept ? 2 : 1);
    part("desk-remove").hidden = shown === null;
    tell(part("desk-note"), isKept || sheets.length === 0 ? "" : NOT_KEPT);
  }

  /** Takes the scramble that is shown away with all that was done; an entry of the history has its address. */
  #remove() {
    const at = this.#desk.remove();
    const { sheets } = this.#desk;
    tellAt(part("desk-remove"), `Scramble ${at + 1} was removed: the browser's Back brings it back.`);
    location.hash = (sheets[at] ?? sheets[at - 1])?.address ?? "#";
  }
}
