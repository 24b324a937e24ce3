// Where the 54 letters of a cube stand in its net, for who draws it, and which ones a piece has, for who marks pieces.
import { CORNER_PLACES, type CornerPlace, type EdgePlace } from "./facts.js";

/** From above and from the left, from 0. */
export type NetPlace = Readonly<{ row: number; column: number }>;

/** Where the faces begin in the net, U, R, F, D, L and B. */
const FACES_IN_NET = [[0, 3], [3, 6], [3, 3], [6, 3], [3, 0], [3, 9]];

/** Where the letters of `facelets` stand in the net of 9 rows and 12 columns: U above F; L, F, R, B; D below F. */
export const NET: readonly NetPlace[] = Object.freeze(FACES_IN_NET.flatMap(([row, column]) =>
  Array.from({ length: 9 }, (_, at) => Object.freeze({ row: row + Math.floor(at / 3), column: column + (at % 3) }))));

/** The numbers of the letters of each place, from 0, in the order of its name. */
const STICKERS: Record<EdgePlace | CornerPlace, number[]> = {
  UR: [5, 10], UF: [7, 19], UL: [3, 37], UB: [1, 46], DR: [32, 16], DF: [28, 25],
  DL: [30, 43], DB: [34, 52], FR: [23, 12], FL: [21, 41], BL: [50, 39], BR: [48, 14],
  URF: [8, 9, 20], UFL: [6, 18, 38], ULB: [0, 36, 47], UBR: [2, 45, 11],
  DFR: [29, 26, 15], DLF: [27, 44, 24], DBL: [33, 53, 42], DRB: [35, 17, 51],
};

/** The same by each name that begins with another face and goes on around the piece as its own name does. */
const STICKERS_BY_NAME = new Map(Object.entries(STICKERS).flatMap(([name, stickers]) => [...name].map((_, begin) => {
  const from = [...stickers.slice(begin), ...stickers.slice(0, begin)];
  return [name.slice(begin) + name.slice(0, begin), from] as const;
})));

/** The faces in the order of `facelets`, of which each has nine letters, its centre in the middle of them. */
const FACE_LETTERS = "URFDLB";

/** What a place of a turned cube is called by the faces of an unturned one. */
const unturnedName = (name: string, centres: string) =>
  name.replace(/./gs, (face) => FACE_LETTERS[centres.indexOf(face)] ?? "?");

function centresOf(letters: string): string {
  const centres = /^[URFDLB]{54}$/.test(letters) ? [...FACE_LETTERS].map((_, at) => letters[9 * at + 4]).join("") : "";
  // corners that are corners again, and none as in a mirror, leave no other way than to turn the whole cube
  const isCube = CORNER_PLACES.every((name) => STICKERS_BY_NAME.has(unturnedName(name, centres)));
  if (!isCube) throw new RangeError("these are not the 54 letters of a cube");
  return centres;
}

/** The stickers of some places: the numbers of their letters in what `facelets` returns, from 0, those of a place in
 * the order of its name. Places are named by the centres, as `facts` names them: give the `letters` of a cube that
 * slices or rotations may have turned.
 * @param letters what `facelets` returns of the cube, else it is an unturned one */
export function stickersOf(places: readonly (EdgePlace | CornerPlace)[], letters?: string): number[] {
  const centres = letters === undefined ? FACE_LETTERS : centresOf(letters);
  return places.flatMap((place) => {
    if (!Object.hasOwn(STICKERS, place)) throw new RangeError(`no place is called ${place}`);
    return STICKERS_BY_NAME.get(unturnedName(place, centres)) as number[];
  });
}
