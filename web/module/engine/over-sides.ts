// The solutions of a step over both sides of a line, by calls of the module on those of one length.
import { joinedBytes, type Text } from "../shared/bytes.js";
import { SIDES_ANSWER, SIDES_WANTED, WAY_PART } from "../shared/layout.js";
import { STATUS, hasValue, structOf } from "../shared/structs.js";
import { refusal, rewritten } from "./line-calls.js";
import type { CountOfSides, FoundParts, LineReply, NoValue } from "../calls/replies.js";
import type { Instance } from "./instance.js";
import type { RequestOf } from "../calls/requests.js";

type OverSides = RequestOf<"solveSides" | "countSides">;

/** The numbers of the sides that moves may be on. */
const NUMBERS = { normal: 1, inverse: 2, both: 3 };

/** So many solutions are asked for at first, since the search for others begins anew; then for more. */
const FIRST_PARTS = 4_096;
const MORE_PARTS = 4;

/** What is asked of one length. `passed`: how many solutions are passed over; `rows`: how many have place; `nodes`: at
 * how many positions it may look; `counts`: whether those without a place are counted, as 1 or 0. */
type Piece = { length: number; passed: number; rows: number; nodes: number; counts: number };
type FoundOfLength = FoundParts & { solutions: number };

const SIDES_READ = SIDES_ANSWER.read;

function foundOfLength(
  instance: Instance, { step, line, sides }: OverSides, { length, passed, rows, nodes, counts }: Piece,
): FoundOfLength | NoValue {
  const mostNodes = Math.min(nodes, Number.MAX_SAFE_INTEGER);
  const wanted = structOf(SIDES_WANTED, { sides: NUMBERS[sides], length, counts, passed, mostNodes });
  const places = instance.ask("nissy_solve_sides", [
    BigInt(instance.tablesOf(step)), { text: line }, { text: "" }, { struct: wanted }, { rows, of: WAY_PART },
  ]);
  if (!hasValue(instance.status)) return refusal(instance, line, step);
  return {
    status: instance.status as 0 | 5,
    more: instance.answered(SIDES_READ.more) === 1,
    parts: instance.memory.copy(places[4], instance.answered(SIDES_READ.rows) * WAY_PART.bytes),
    solutions: instance.answered(SIDES_READ.solutions),
    nodes: instance.answered(SIDES_READ.nodes),
  };
}

/** How many solutions of a step have exactly so many turns over the sides that are asked for, as far as it may look. */
export function countedOverSides(instance: Instance, request: RequestOf<"countSides">): CountOfSides | NoValue {
  const piece = { length: request.limit, passed: 0, rows: 0, nodes: request.nodes, counts: 1 };
  const found = foundOfLength(instance, request, piece);
  if (!("parts" in found)) return found;
  return { solutions: found.solutions, nodes: found.nodes, isCut: found.status === STATUS.cut };
}

/** The face turns of a line, named by the centres, as solutions of the line name theirs. */
function turnsOf(instance: Instance, line: Text): LineReply {
  const whole = rewritten(instance, "nissy_unniss", line);
  const clean = whole.status === STATUS.done ? rewritten(instance, "nissy_cleanup", whole.out) : whole;
  return clean.status === STATUS.done ? { ...clean, out: clean.out.replace(/ ?[xyz].*/, "") } : clean;
}

/** The solutions of a step over the sides that are asked for, from the shortest on. */
export function solvedOverSides(instance: Instance, request: RequestOf<"solveSides">): FoundParts | NoValue {
  // a step that isn't there is told before a fault
  instance.tablesOf(request.step);
  const turns = turnsOf(instance, request.line);
  if (turns.status !== STATUS.done) return turns;
  const all: Uint8Array[] = [];
  let [count, nodes, longest, more] = [0, 0, request.limit, false];
  for (let [length, passed, rows] = [0, 0, FIRST_PARTS]; ;) {
    const bounds = { rows: Math.min(rows, request.most - count), nodes: request.nodes - nodes };
    const found = foundOfLength(instance, { ...request, line: turns.out }, { length, passed, ...bounds, counts: 0 });
    if (!("parts" in found)) return found;
    const taken = found.parts.length / WAY_PART.bytes;
    if (count === 0 && taken > 0) longest = Math.min(longest, length + request.slack);
    all.push(found.parts);
    [count, nodes, more] = [count + taken, nodes + found.nodes, found.more || found.status === STATUS.cut];
    [length, passed, rows] = found.more ? [length, passed + taken, rows * MORE_PARTS] : [length + 1, 0, FIRST_PARTS];
    const isEnd = found.status === STATUS.cut || length > longest || (more && count === request.most);
    if (isEnd) return { status: found.status, parts: joinedBytes(all), more, nodes };
  }
}
