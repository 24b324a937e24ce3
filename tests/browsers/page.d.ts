// What the page's scripts know of their elements and of today's browsers, beyond what tsc has of them: tests/browsers.sh reads the types of
// web/page with it.

/** What the page finds by a selector, or has in focus, is an element of HTML, or an SVG one of which no more is asked. */
interface ParentNode {
  querySelector(selectors: string): HTMLElement | null;
  querySelectorAll(selectors: string): NodeListOf<HTMLElement>;
}

interface Element extends HTMLOrSVGElement {
  textContent: string;
  checkVisibility(): boolean;
  scrollIntoView(how: { block: ScrollLogicalPosition; behavior: "instant" }): void;
}

/** What is pressed, typed in or has the focus is such an element. */
interface UIEvent {
  readonly target: HTMLElement;
  readonly currentTarget: HTMLElement;
}

/** Of a popover that opens or closes. */
interface Event {
  newState?: "open" | "closed";
}

interface Array<T> {
  findLastIndex(is: (value: T, index: number) => boolean): number;
  toSpliced(start: number, deleted: number, ...added: T[]): T[];
  with(index: number, value: T): T[];
}

declare function scrollTo(to: { top: number; behavior: "instant" }): void;
declare function scrollBy(by: { top: number; behavior: "instant" }): void;

interface Uint8ArrayConstructor {
  fromBase64?(text: string): Uint8Array;
}

/** A form of packing undone, byte by byte. */
declare class DecompressionStream implements ReadableWritablePair<Uint8Array, Uint8Array> {
  constructor(format: "gzip");
  readonly readable: ReadableStream<Uint8Array>;
  readonly writable: WritableStream<Uint8Array>;
}
