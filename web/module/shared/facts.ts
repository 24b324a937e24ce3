// What is told of lines without a search: where the bad pieces of a cube stand, and whether a solution solves it.
import type { Step } from "./steps.js";

/** The axes of the faces F and B, of R and L, and of U and D, in the module's order. */
export const AXES = Object.freeze(["fb", "rl", "ud"] as const);

/** The places of the edges and of the corners: place i is bit i of the module's masks. */
export const EDGE_PLACES = Object.freeze([
  "UR", "UF", "UL", "UB", "DR", "DF", "DL", "DB", "FR", "FL", "BL", "BR",
] as const);
export const CORNER_PLACES = Object.freeze(["URF", "UFL", "ULB", "UBR", "DFR", "DLF", "DBL", "DRB"] as const);

/** The forms of moves that the WCA's notation hasn't: form i is bit i of the module's mask. */
export const FORMS = ["slices", "lower_case", "brackets", "apostrophe", "half_prime"] as const;

export type Axis = typeof AXES[number];
export type EdgePlace = typeof EDGE_PLACES[number];
export type CornerPlace = typeof CORNER_PLACES[number];

/** A form of moves that the WCA's notation hasn't: M, E or S; a lower-case letter for a turn of an outer block;
 * brackets; U+2019 in place of '; and 2' for a half turn. */
export type Form = typeof FORMS[number];

export type OnEachAxis<Told> = Record<Axis, Told>;

/** What is seen of the cube of a line, whose axes are those of its centres. */
export type Facts = {
  /** However it is held. */
  solved: boolean;
  /** As written: turns of faces and outer blocks count one each, slice turns two, rotations none. */
  moves: number;
  /** How many face turns the line's one sequence has once it is cleaned. */
  cleanMoves: number;
  /** The places of the edges that aren't oriented on the axis. */
  badEdges: OnEachAxis<readonly EdgePlace[]>;
  /** Those of the corners whose sticker of the axis's two faces is on another face. */
  badCorners: OnEachAxis<readonly CornerPlace[]>;
  /** Those of the edges on the wrong side of the axis's slice. */
  misplacedEdges: OnEachAxis<readonly EdgePlace[]>;
  /** The case of a domino reduction on the axis: `4c4e` has four bad corners and four misplaced edges. */
  case: OnEachAxis<string>;
  /** The steps that the cube has reached. */
  holds: readonly Step[];
};

export type Check = {
  /** Its moves after the scramble's solve the cube, however it is held then. */
  solved: boolean;
  /** As those of `Facts`. */
  moves: number;
  cleanMoves: number;
  forms: readonly Form[];
};
