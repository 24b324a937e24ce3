// Makes and fills elements of the page. Text from outside goes through here as text, never as markup.
import { present } from "./certain.js";

/** An element of the page, which may be a field, a bar or what folds. */
export type PageElement = HTMLElement & { showPopover(): void; hidePopover(): void }
  & Pick<HTMLTextAreaElement, "value" | "disabled" | "maxLength" | "selectionStart" | "selectionEnd">
  & Pick<HTMLTextAreaElement, "setSelectionRange"> & Pick<HTMLInputElement, "checked">
  & Pick<HTMLSelectElement, "selectedIndex"> & Pick<HTMLProgressElement, "max">
  & Pick<HTMLDialogElement, "open" | "showModal" | "close">;

export function part(id: string): PageElement {
  const found = document.getElementById(id);
  if (!found) throw new Error(`the page has no part ${id}`);
  return found as PageElement;
}

/** The part of another one that has this value as its data of a name, or null. */
export const withData = (within: HTMLElement, name: string, value: string) =>
  [...within.querySelectorAll(`[data-${name}]`)].find(({ dataset }) => dataset[name] === value) ?? null;

export const inner = (within: ParentNode, selector: string): HTMLElement => present(within.querySelector(selector));

type Happened = Event & { readonly target: PageElement; readonly currentTarget: PageElement };
/** Attributes by their names, and listeners as functions. */
export type Attributes = Record<string, string | number | boolean | ((event: Happened) => void)>;

export function element(name: string, attributes: Attributes = {}, ...children: (Node | string)[]): PageElement {
  const made = document.createElement(name);
  for (const [key, value] of Object.entries(attributes)) {
    if (typeof value === "function") made.addEventListener(key, value as (event: Event) => void);
    else if (value === true) made.setAttribute(key, "");
    else if (value !== false) made.setAttribute(key, String(value));
  }
  made.append(...children);
  return made as PageElement;
}

export const button = (content: string | (Node | string)[], attributes: Attributes) =>
  element("button", { type: "button", ...attributes }, ...[content].flat());

/** Shows text in an element, and hides the element where there is none. */
export function tell(where: HTMLElement, text: string) {
  where.textContent = text;
  where.hidden = text === "";
}

const QUIET = 700;
let later = 0;

/** Says something to screen readers, in place of what would be said later. */
export function announce(text: string) {
  clearTimeout(later);
  part("status").textContent = text;
}

/** Says something to screen readers once nothing else changes for a moment; an empty text takes that back. */
export function announceLater(text: string) {
  clearTimeout(later);
  if (text !== "") later = setTimeout(announce, QUIET, text);
}

const LONG_WAIT = 500;
const waiting = new Map<string, number>();

/** Says of a part of the page whether it waits for answers, and to screen readers for what, if that takes a while. */
export function setBusy(id: string, isBusy: boolean, text = "") {
  part(id).setAttribute("aria-busy", String(isBusy));
  clearTimeout(waiting.get(id));
  if (isBusy && text !== "") waiting.set(id, setTimeout(announce, LONG_WAIT, text));
}

/** A number as it is read: `1,200`. The browser's own way takes milliseconds the first time. */
export const grouped = (count: number) => String(count).replace(/\B(?=(?:\d{3})+$)/g, ",");

/** A number with its word: `1 move`, `1,200 moves`. */
export const counted = (count: number, word: string) => `${grouped(count)} ${word}${count === 1 ? "" : "s"}`;

export const shortened = (text: string, most: number) => (text.length > most ? `${text.slice(0, most)}…` : text);

/** Moves as they are said, since an apostrophe isn't read as solvers read it. */
export const spoken = (moves: string) => moves.replace(/'/g, " prime").replace(/\(/g, "on the inverse side ")
  .replace(/\)/g, "");
