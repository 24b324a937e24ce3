// Moves on both sides: on the scramble, the normal side, and on its inverse, whose moves stand in brackets in a line.

export type Side = "normal" | "inverse";

export type OnSides<Kept> = Record<Side, Kept>;

/** Of a step on each side, of which one or both may have none. */
export type Moves = OnSides<string>;

export const SIDES: readonly Side[] = ["normal", "inverse"];

export const otherSide = (side: Side): Side => (side === "normal" ? "inverse" : "normal");

export const joined = (...lines: string[]) => lines.filter((line) => line !== "").join(" ");

/** Steps as one line, with what is on the inverse side in brackets. */
export function bracketed(steps: readonly Moves[]) {
  const runs: { side: Side; moves: string }[] = [];
  for (const { side, moves } of steps.flatMap((step) => SIDES.map((side) => ({ side, moves: step[side] })))) {
    const last = runs[runs.length - 1];
    if (moves === "") continue;
    if (last?.side === side) last.moves = joined(last.moves, moves);
    else runs.push({ side, moves });
  }
  return runs.map(({ side, moves }) => (side === "normal" ? moves : `(${moves})`)).join(" ");
}
