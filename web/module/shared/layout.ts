// The structs of include/nissy.h, which tests/module/layout.mjs holds beside these, and rooms enough for its calls.
import { struct } from "./structs.js";

/** With which each answer begins of a call on a line that may have a fault. */
const HEAD_FIELDS = { status: 1, fault: 1 } as const;

export const RUN_ANSWER = struct({ status: 1, outTooSmall: 1, errTooSmall: 1, outLength: 8, errLength: 8 });
export const LINE_ANSWER = struct({ ...HEAD_FIELDS, column: 4, length: 8 });
export const SEARCH_ANSWER = struct({
  ...HEAD_FIELDS, least: 1, more: 1, column: 4, length: 8, solutions: 8, nodes: 8,
});
export const AXIS_FACTS = struct({
  badEdgePlaces: 2, badCornerPlaces: 2, misplacedEdgePlaces: 2, badEdges: 1, badCorners: 1, misplacedEdges: 1,
});
export const FACTS_ANSWER = struct({
  ...HEAD_FIELDS, solved: 1, column: 4, moves: 2, cleanMoves: 2, holds: 2, axes: [AXIS_FACTS, 3],
});
export const CHECK_ANSWER = struct({
  ...HEAD_FIELDS, line: 1, solved: 1, column: 4, moves: 2, cleanMoves: 2, forms: 1,
});
export const LINES_ANSWER = struct({ status: 1, lines: 8, bytes: 8 });
export const SIDE_TURNS = struct({ count: 1, free: 1, turns: [1, 20] });
export const WAY_PART = struct({ step: 1, normal: SIDE_TURNS, inverse: SIDE_TURNS });
export const WAY = struct({ total: 2, corners: 1, edges: 1, onNormal: 1, onInverse: 1, eo: WAY_PART, dr: WAY_PART });
export const WAYS_WANTED = struct({ slack: 1, axes: 1, from: 1, to: 1, mostNodes: 8, there: 8 });
export const WAYS_ANSWER = struct({ ...HEAD_FIELDS, line: 1, next: 1, column: 4, rows: 8, tried: 8, nodes: 8 });
export const SIDES_WANTED = struct({ sides: 1, length: 1, counts: 1, passed: 8, mostNodes: 8 });
export const SIDES_ANSWER = struct({ ...HEAD_FIELDS, line: 1, more: 1, column: 4, rows: 8, solutions: 8, nodes: 8 });
export const LINE_AFTER_ANSWER = struct({ ...HEAD_FIELDS, line: 1, column: 4, length: 8 });

/** The longest line of a solution: twenty turns of two bytes with blanks between them, and ` (20)` with a line feed. */
export const SOLUTION = 65;

/** The room for a line, and for an error text, which is enough for each. */
export const LINE_ROOM = 2_048;
export const ERROR_ROOM = 128;
