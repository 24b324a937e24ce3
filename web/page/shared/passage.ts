// How a reduction goes: its moves with the cases that it passes, such as `6c6e D' 4c4e F B' L2 D`, and its trigger.
import { element } from "./element.js";

/** The cases from which solvers know the moves to the end. */
const KNOWN_CASES = ["4c4e", "4c2e", "3c2e", "2c4e"];

const SIGN_OF_CASE = 0.8;

/** Where the trigger begins: from there on each case is known. @param cases before each move */
const startOfTrigger = (cases: string[]) => cases.findLastIndex((each) => !KNOWN_CASES.includes(each)) + 1;

/** The case from which the trigger goes, "" if there is none. */
export const triggerOf = (cases: string[]) => cases[startOfTrigger(cases)] ?? "";

/** The places of the moves before which a case is written: where it is another one. */
const placesOfCases = (cases: string[]) =>
  cases.flatMap((each, at) => (at === 0 || each !== cases[at - 1] ? [at] : []));

/** How many signs of moves are as wide as the cases. */
export const signsOfCases = (cases: string[]) =>
  placesOfCases(cases).reduce((sum, at) => sum + SIGN_OF_CASE * cases[at].length + 1, 0);

/** Moves with the cases before them. The style writes these, so that the text is the moves.
 * @param cases before each of them; none of another step. @param shown how moves are */
export function withCases(text: string, cases: string[], shown = (moves: string): (Node | string)[] => [moves]) {
  const [words, start] = [text.split(" "), startOfTrigger(cases)];
  if (cases.length !== words.length) return shown(text);
  const places = placesOfCases(cases);
  return places.flatMap((at, count) => [
    ...(count === 0 ? [] : [" "]),
    element("span", { class: at >= start ? "passed trigger" : "passed", "data-case": cases[at] },
      ...shown(words.slice(at, places[count + 1]).join(" "))),
  ]);
}

export const wordsOfTrigger = (cases: string[]) =>
  [triggerOf(cases)].filter(Boolean).map((each) => `trigger from ${each}`);

export const saidOfCases = (cases: string[]) =>
  [...cases.slice(0, 1).map((each) => `from ${each}`), ...wordsOfTrigger(cases)];
