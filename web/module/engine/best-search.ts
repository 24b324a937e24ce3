// The search for the best ways on from a scramble and the moves so far, by calls of the module on one length of a first
// step on one axis each: between them it tells its progress.
import { WAY, WAYS_ANSWER, WAYS_WANTED } from "../shared/layout.js";
import { STEPS } from "../shared/steps.js";
import { STATUS, hasValue, structOf } from "../shared/structs.js";
import { TABLES, type Instance } from "./instance.js";
import { refusalOfTwo } from "./line-calls.js";
import type { BestReply, FoundWays, OfTwo } from "../calls/replies.js";
import type { RequestOf } from "../calls/requests.js";
import type { Follow } from "../calls/signals.js";

/** The first steps of one length on one axis, from its number; `rows`: how many have place. */
type Piece = { axis: number; length: number; rows: number };
/** What was found of a length: `next`, whether there are longer first steps. */
type PieceFound = FoundWays & { status: 0 | 5; next: boolean };

const OF_WAYS = STEPS.slice(0, 9);

/** So many rows have place at first; if they all come, the same is asked again with more. */
const FIRST_ROWS = 4_096;
const MORE_ROWS = 4;

const WAYS_READ = WAYS_ANSWER.read;

/** The tables of all steps one after another: of one axis its orientation and the reductions after it are asked. */
function tablesOf(instance: Instance, axis: number): Uint8Array {
  const built = OF_WAYS.map((step) => (step.endsWith(OF_WAYS[axis]) ? instance.tablesOf(step) : null));
  const tables = new Uint8Array(OF_WAYS.length * TABLES);
  built.forEach((at, place) => at !== null && tables.set(instance.memory.bytes(at, TABLES), place * TABLES));
  return tables;
}

/** Asks the module for the first steps of one length on one axis.
 * @param found before, of which the rows stand in the room */
function pieceFound(
  instance: Instance, { scramble, soFar, slack, nodes }: RequestOf<"best">, { axis, length, rows }: Piece,
  found: FoundWays,
): PieceFound | OfTwo {
  const mostNodes = Math.min(nodes - found.nodes, Number.MAX_SAFE_INTEGER);
  const there = found.ways.length / WAY.bytes;
  const wanted = structOf(WAYS_WANTED, { slack, axes: 1 << axis, from: length, to: length, mostNodes, there });
  const places = instance.ask("nissy_best", [
    { struct: tablesOf(instance, axis) }, { text: scramble }, { text: soFar }, { struct: wanted },
    { rows, of: WAY, first: found.ways },
  ]);
  if (!hasValue(instance.status)) return refusalOfTwo(instance, scramble, soFar);
  return {
    status: instance.status as 0 | 5,
    next: instance.answered(WAYS_READ.next) === 1,
    ways: instance.memory.copy(places[4], instance.answered(WAYS_READ.rows) * WAY.bytes),
    tried: found.tried + instance.answered(WAYS_READ.tried),
    nodes: found.nodes + instance.answered(WAYS_READ.nodes),
  };
}

/** The same, with place for all rows that are wanted. */
function wholePiece(
  instance: Instance, request: RequestOf<"best">, piece: Omit<Piece, "rows">, found: FoundWays,
): PieceFound | OfTwo {
  for (let most = Math.max(FIRST_ROWS, MORE_ROWS * (found.ways.length / WAY.bytes)); ; most *= MORE_ROWS) {
    const rows = Math.min(request.most, most);
    const reply = pieceFound(instance, request, { ...piece, rows }, found);
    const isWhole = !("ways" in reply) || rows === request.most || reply.ways.length < rows * WAY.bytes;
    if (isWhole) return reply;
  }
}

/** The best ways on: those with shorter first steps on all axes are looked for before those with longer ones.
 * @param tell what it throws ends the search */
export function bestOf(instance: Instance, request: RequestOf<"best">, tell: Follow): BestReply {
  const end = performance.now() + request.milliseconds;
  let found: FoundWays = { ways: new Uint8Array(0), tried: 0, nodes: 0 };
  let open = request.axes;
  for (let length = 0; open.length > 0; length += 1) {
    const longer = [];
    for (const axis of open) {
      tell({ done: found.tried, all: null });
      // a piece that may not look tells of a fault all the same
      const nodes = performance.now() < end ? request.nodes : found.nodes;
      const reply = wholePiece(instance, { ...request, nodes }, { axis, length }, found);
      if (!("ways" in reply)) return reply;
      const { status, next, ...all } = reply;
      if (status === STATUS.cut) return { status, ...all };
      found = all;
      if (next) longer.push(axis);
    }
    open = longer;
  }
  tell({ done: found.tried, all: found.tried });
  return { status: STATUS.done, ...found };
}
