// The desk: the scrambles that are worked on, each with all that was done with it, in the order in which they came. The
// browser keeps it, for all pages that it has open; what it refuses lasts as long as the page.
import { addressOf, fitsAddress, hasLines, readAddress, type State } from "./address.js";
import { fieldsOf } from "../shared/certain.js";
import { joinedStates } from "./kept-lines.js";
import { placeIn, type Place } from "./history.js";
import { store, stored } from "./storage.js";
import type { Written } from "../answers/read-lines.js";

/** A scramble on the desk: the address that has its state, and where one was. `written`: where it stands among others
 * that were pasted with it, until it is opened; `isDrawn`: it came by chance, and is given up if nothing was done. */
export type Sheet = { id: number; address: string; place: Place | null; written: Written | null; isDrawn: boolean };

export type NewSheet = { state: State; written: Written | null };

const DESK = "nissy-desk";
const MOST_SHEETS = 100;

function writtenIn(value: unknown): Written | null {
  const { text, at } = fieldsOf(value);
  return typeof text === "string" && typeof at === "number" ? { text, at } : null;
}

/** A sheet that the browser kept, or null: its address is read as any other one. */
function sheetIn(value: unknown): Sheet | null {
  const { id, address, place, written, isDrawn } = fieldsOf(value);
  if (typeof id !== "number" || typeof address !== "string") return null;
  const { state, fault } = readAddress(address);
  if (fault !== "" || state.scramble.trim() === "") return null;
  return { id, address, place: placeIn(place), written: writtenIn(written), isDrawn: isDrawn === true };
}

function sheetsOf(text: string): Sheet[] {
  try {
    const values: unknown = JSON.parse(text || "[]");
    return Array.isArray(values) ? values.flatMap((value) => sheetIn(value) ?? []) : [];
  } catch {
    return [];
  }
}

const freshId = () => crypto.getRandomValues(new Uint32Array(1))[0];

export const stateOfSheet = ({ address }: Sheet) => readAddress(address).state;

const plainly = (scramble: string) => scramble.trim().replace(/ +/g, " ");

const sheetOf = (sheets: readonly Sheet[], scramble: string) =>
  sheets.find((each) => plainly(stateOfSheet(each).scramble) === plainly(scramble)) ?? null;

export class Desk {
  /** what the browser keeps, and what it says */
  #text = stored(DESK);
  #sheets = sheetsOf(this.#text);
  /** the sheet that is shown, or 0 */
  #at = 0;
  /** what was taken away, by its number, and where it stood: the browser's Back may lead to it */
  #removed = new Map<number | null, { sheet: Sheet; at: number }>();
  /** whether the browser keeps what is done */
  isKept = true;

  get sheets(): readonly Sheet[] {
    return this.#sheets;
  }

  get shown(): Sheet | null {
    return this.#sheets.find(({ id }) => id === this.#at) ?? null;
  }

  /** Takes over what other pages changed. */
  readAgain() {
    const text = this.isKept ? stored(DESK) : this.#text;
    if (text === this.#text) return;
    this.#text = text;
    this.#sheets = sheetsOf(text);
  }

  #change(change: (sheets: Sheet[]) => Sheet[]) {
    // what other pages did meanwhile stays
    this.readAgain();
    this.#sheets = change(this.#sheets);
    this.#text = JSON.stringify(this.#sheets);
    this.isKept = store(DESK, this.#text);
  }

  /** Turns to the sheet of a scramble, if it has one. @param id of the sheet that the history has, null if it is new */
  turnTo(scramble: string, id: number | null = null): Sheet | null {
    this.readAgain();
    const sheet = this.#sheets.find((each) => each.id === id) ?? sheetOf(this.#sheets, scramble) ?? this.#putBack(id);
    const before = this.shown;
    this.#at = sheet?.id ?? 0;
    const isBare = before?.isDrawn && before !== sheet && !hasLines(stateOfSheet(before));
    const isLeft = scramble.trim() !== "" || id !== null;
    if (isBare && isLeft) this.#change((sheets) => sheets.filter((each) => each.id !== before.id));
    return sheet;
  }

  /** Has the sheet that is shown, or a new one, hold a state. @param isDrawn of a new one, whether it came by chance */
  keep(state: State, isDrawn: boolean) {
    if (state.scramble.trim() === "" || !fitsAddress(state)) return;
    const address = addressOf(state);
    const { shown } = this;
    if (shown?.address === address && shown.written === null) return;
    this.#change((sheets) => {
      const own = sheets.find(({ id }) => id === this.#at);
      if (own) return sheets.map((each) => (each === own ? { ...own, address, written: null } : each));
      if (sheets.length >= MOST_SHEETS) return sheets;
      this.#at = freshId();
      return [...sheets, { id: this.#at, address, place: null, written: null, isDrawn }];
    });
  }

  leave(place: Place) {
    this.#change((sheets) => sheets.map((each) => (each.id === this.#at ? { ...each, place } : each)));
  }

  /** Lays scrambles beside the others; what was done with one joins what is there of it. Says how many had no room. */
  add(added: NewSheet[]) {
    let left = 0;
    this.#change((sheets) => added.reduce((all, { state, written }) => {
      const own = sheetOf(all, state.scramble);
      const joined = own ? joinedStates(stateOfSheet(own), state) : state;
      const address = addressOf(joined);
      if (own) return all.map((each) => (each === own && fitsAddress(joined) ? { ...own, address } : each));
      if (all.length < MOST_SHEETS) return [...all, { id: freshId(), address, place: null, written, isDrawn: false }];
      left++;
      return all;
    }, sheets));
    return left;
  }

  /** Takes the sheet that is shown away. @returns its place */
  remove() {
    const at = this.#sheets.findIndex(({ id }) => id === this.#at);
    if (at >= 0) this.#removed.set(this.#at, { sheet: this.#sheets[at], at });
    this.#change((sheets) => sheets.filter(({ id }) => id !== this.#at));
    this.#at = 0;
    return at;
  }

  /** Lays a sheet that was taken away back where it stood, if there is room. @returns it, or null */
  #putBack(id: number | null) {
    const removed = this.#removed.get(id);
    if (removed === undefined || this.#sheets.length >= MOST_SHEETS) return null;
    this.#change((sheets) => [...sheets.slice(0, removed.at), removed.sheet, ...sheets.slice(removed.at)]);
    return removed.sheet;
  }
}

/** A line with an address, which a letter may have quoted. */
const ADDRESS = /^[> \t\u00A0]*(#scramble=\S+)[ \t]*$/gm;

/** All scrambles of a desk as a text, which another page takes when it is pasted. */
export const textOfDesk = (sheets: readonly Sheet[]) => [
  "Scrambles of nissy: paste all of this where its page has a scramble.",
  ...sheets.map((each, at) => `\n${at + 1}. ${stateOfSheet(each).scramble}\n${each.address}`),
].join("\n");

export const withoutAddresses = (text: string) => text.replace(ADDRESS, "");

/** The scrambles of such a text; none of any other one. */
export const sheetsIn = (text: string): NewSheet[] => [...text.matchAll(ADDRESS)].flatMap(([, address]) => {
  const { state, fault } = readAddress(address);
  return fault === "" && state.scramble.trim() !== "" ? [{ state, written: null }] : [];
});
