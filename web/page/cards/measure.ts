// A measure for what nobody asked for: up to ten seconds of one processor for a scramble, and nothing on a phone.
import { counted } from "../shared/element.js";
import type { Size } from "../answers/orientations.js";

const MOST_SECONDS = 10;
const MINUTE = 60;

/** The first orientations of an axis are looked at with their reductions, the others only until they can't be among the
 * best: how many the first are, and how many of each a processor looks at in a second. */
const FIRST = 4_000;
const FIRST_IN_SECOND = 8_000;
const IN_SECOND = 100_000;

/** How many seconds the orientations of an axis take, as long as nothing is measured. */
const expectedOf = ({ count }: Size) => Math.min(count, FIRST) / FIRST_IN_SECOND + count / IN_SECOND;

const processors = () => navigator.hardwareConcurrency || 2;

/** How many of them what nobody asked for may take. */
export const mostTogether = () => Math.max(1, processors() >> 1);

/** Whether the machine is one on which nothing is looked for that nobody asked for. */
export const isSmall = () => matchMedia("(pointer: coarse)").matches || processors() <= 2;

/** Seconds in words that promise no more than is known. */
function timeInWords(seconds: number) {
  if (seconds >= 2 * MINUTE) return `${Math.round(seconds / MINUTE)} min`;
  return `${seconds < 10 ? Math.max(1, Math.round(seconds)) : 5 * Math.round(seconds / 5)} s`;
}

export class Measure {
  /** How many seconds were expected, and taken: at first as if one was. */
  #expected = 1;
  #taken = 1;
  /** For how many seconds of one processor the scramble was looked at. */
  #spent = 0;

  begin() {
    this.#spent = 0;
  }

  spend(size: Size, seconds: number) {
    this.#expected += expectedOf(size);
    this.#taken += seconds;
    this.#spent += seconds;
  }

  /** Whether orientations may be looked at without being asked for. */
  allows(sizes: Size[]) {
    return !isSmall() && this.#spent + this.#secondsOf(sizes) <= MOST_SECONDS;
  }

  words(sizes: Size[]) {
    const count = sizes.reduce((sum, size) => sum + size.count, 0);
    const time = timeInWords(this.#secondsOf(sizes) / Math.min(sizes.length, mostTogether()));
    if (sizes.every((size) => size.counted)) return `${counted(count, "EO")}, about ${time}`;
    return `about ${counted(Number(count.toPrecision(2)), "EO")}, ${time}`;
  }

  #secondsOf(sizes: Size[]) {
    return sizes.reduce((sum, size) => sum + expectedOf(size), 0) * this.#taken / this.#expected;
  }
}
