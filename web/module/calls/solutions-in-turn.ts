// Solutions one after another, without a list of them: asked for in pieces, each by the last one of that before it.
import { solutionsIn, type Solution, type Solutions, type SolveReply } from "./replies.js";
import type { SolveRequest } from "./requests.js";

/** How many are asked for at first, so that these are there soon, and at most; each piece has more than the last. */
const FIRST_OF_PIECES = 64;
const MOST_OF_PIECE = 16_384;
const GROWTH_OF_PIECES = 4;

function nextPiece(request: SolveRequest, found: Solutions): SolveRequest | null {
  const last = found[found.length - 1];
  if (!found.more || last === undefined) return null;
  return { ...request, most: Math.min(GROWTH_OF_PIECES * request.most, MOST_OF_PIECE), after: last.moves };
}

export function* solutionsBy(
  request: SolveRequest, ask: (request: SolveRequest) => SolveReply,
): Generator<Solution, void, undefined> {
  for (let piece: SolveRequest | null = { ...request, most: FIRST_OF_PIECES }; piece !== null;) {
    const found: Solutions = solutionsIn(ask(piece), piece);
    for (const solution of found) yield solution;
    piece = nextPiece(piece, found);
  }
}

/** The same by a worker. */
export async function* solutionsLaterBy(
  request: SolveRequest, ask: (request: SolveRequest) => Promise<SolveReply>,
): AsyncGenerator<Solution, void, undefined> {
  for (let piece: SolveRequest | null = { ...request, most: FIRST_OF_PIECES }; piece !== null;) {
    const found: Solutions = solutionsIn(await ask(piece), piece);
    for (const solution of found) yield solution;
    piece = nextPiece(piece, found);
  }
}
