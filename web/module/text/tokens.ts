// The moves of a line one by one, for those who draw or count them, and those that the WCA's notation hasn't.
import { FORMS, type Form } from "../shared/facts.js";

export type CubeAxis = "x" | "y" | "z";

/** One move of a line. */
export type Token = {
  /** The move in the WCA's notation for moves, such as `Rw2` or `U'`; a lower-case `r` is `Rw`. */
  text: string;
  /** About what it turns: `x` goes through L and R, `y` through D and U, `z` through B and F. */
  axis: CubeAxis;
  /** Which layers it turns: -1 is that of L, D or B, 0 the middle one, 1 that of R, U or F. */
  layers: readonly number[];
  /** By how many: 1, 2 or -1, clockwise as one looks at R, U or F. */
  quarters: number;
  /** Whether it stands in brackets, and so is a move on the inverse scramble. */
  inverse: boolean;
};

/** A move or a bracket of a line that the WCA's notation for solutions hasn't. */
export type FormPlace = {
  /** As it is written. */
  text: string;
  forms: readonly Form[];
  /** Where it begins, in bytes of UTF-8 from 1. */
  column: number;
  /** The same in Unicode's characters. */
  character: number;
};

/** A bracket, or a move: its letters, and what is after them. */
const ITEM = /([()])|([UDRLFB]w?|[udrlfbMESxyz])(2?['\u2019]|2)?/g;

const QUARTERS = new Map([["", 1], ["2", 2], ["'", -1], ["\u2019", -1], ["2'", 2], ["2\u2019", 2]]);
const SUFFIXES = new Map([[1, ""], [2, "2"], [-1, "'"]]);

/** `way`: 1 if it turns as its axis does. */
export type Turned = { axis: CubeAxis; layers: readonly number[]; way: 1 | -1 };

/** The moves of the faces of an axis, and of the layers between them: those of the near face turn as the axis does. */
function movesOfAxis(
  axis: CubeAxis, near: string, far: string, { slice, way }: { slice: string; way: 1 | -1 },
): [string, Turned][] {
  const turned = (layers: number[], ofLayers: 1 | -1) => ({ axis, layers: Object.freeze(layers), way: ofLayers });
  return [
    [near, turned([1], 1)], [far, turned([-1], -1)], [`${near}w`, turned([0, 1], 1)], [`${far}w`, turned([-1, 0], -1)],
    [slice, turned([0], way)], [axis, turned([-1, 0, 1], 1)],
  ];
}

const TURNED = new Map([
  ...movesOfAxis("x", "R", "L", { slice: "M", way: -1 }),
  ...movesOfAxis("y", "U", "D", { slice: "E", way: -1 }),
  ...movesOfAxis("z", "F", "B", { slice: "S", way: 1 }),
]);

function tokenOf(letters: string, suffix: string, inverse: boolean): Token {
  const name = "udrlfb".includes(letters) ? `${letters.toUpperCase()}w` : letters;
  const { axis, layers, way } = TURNED.get(name) as Turned;
  const quarters = QUARTERS.get(suffix) as number;
  return { text: name + SUFFIXES.get(quarters), axis, layers, quarters: quarters === 2 ? 2 : way * quarters, inverse };
}

/** The moves of a line that the engine has read, as they are written, one after another. */
export function tokensOf(line: string): Token[] {
  const tokens = [];
  let inverse = false;
  for (const [, bracket, letters, suffix = ""] of line.matchAll(ITEM)) {
    if (bracket === undefined) tokens.push(tokenOf(letters, suffix, inverse));
    else inverse = bracket === "(";
  }
  return tokens;
}

/** How many bytes more than characters the typographic apostrophe has in UTF-8, the one sign of a line that has any. */
const FURTHER_BYTES = 2;

/** Whether a move or a bracket has a form. */
const HAS: Record<Form, (item: string) => boolean> = {
  slices: (item) => "MES".includes(item[0]),
  lower_case: (item) => "udrlfb".includes(item[0]),
  brackets: (item) => "()".includes(item),
  apostrophe: (item) => item.endsWith("\u2019"),
  half_prime: (item) => item.endsWith("2'") || item.endsWith("2\u2019"),
};

/** The forms of each move and bracket that was seen, of which there are few. */
const knownForms = new Map<string, readonly Form[]>();

function formsOf(item: string): readonly Form[] {
  const forms = knownForms.get(item) ?? Object.freeze(FORMS.filter((form) => HAS[form](item)));
  knownForms.set(item, forms);
  return forms;
}

/** Where a line that the engine has read has forms that the WCA's notation for solutions hasn't. */
export function formPlacesOf(line: string): FormPlace[] {
  const places: FormPlace[] = [];
  let [character, further] = [1, 0];
  for (const text of line.match(ITEM) ?? []) {
    const forms = formsOf(text);
    character = line.indexOf(text, character - 1) + 1;
    if (forms.length > 0) places.push({ text, forms, column: character + further, character });
    character += text.length;
    if (HAS.apostrophe(text)) further += FURTHER_BYTES;
  }
  return places;
}
