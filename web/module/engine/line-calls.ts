// The calls of the module on one line each, or two, or on none, runs too: what they are given, how an answer is read.
import { MOST_WIDE, characterAt, textIn, type Text } from "../shared/bytes.js";
import {
  CHECK_ANSWER, ERROR_ROOM, FACTS_ANSWER, LINE_ANSWER, LINE_ROOM, RUN_ANSWER, SEARCH_ANSWER, SOLUTION,
} from "../shared/layout.js";
import { HEAD, START_FAULT, STATUS, hasValue, type Struct } from "../shared/structs.js";
import { ROOM, type Given, type Instance } from "./instance.js";
import type { RequestOf, Search, SolveRequest } from "../calls/requests.js";
import type { Answer, LineReply, NoValue, OfTwo, Seen, SolveBytesReply, SolveReply } from "../calls/replies.js";

/** The rooms for solutions, of which the next one is taken if one was too small: they are searched for again then. */
const SOLUTION_ROOMS = [65_536, 4 * 1_048_576, 256 * 1_048_576];

const bound = (most: number): bigint => (most === Infinity ? MOST_WIDE : BigInt(most));
export const boundsOf = ({ limit, slack, most, nodes }: Search): Given[] => [limit, slack, bound(most), bound(nodes)];

const outOf = (reply: LineReply): string => (reply.status === STATUS.done ? reply.out : "");

/** The words for each fault by its number, which each module has alike: it is asked for them once. */
const faultTexts: string[] = [];
export const faultText = (instance: Instance, fault: number): string =>
  (faultTexts[fault] ??= outOf(written(instance, "nissy_fault_text", [fault])));

/** Why a call on a line has no value. The module is asked for the words, so its answer is read before. */
export function refusal(
  instance: Instance, line: Text = "", step = "", bytes = instance.memory.all, at = instance.answer,
): NoValue {
  const [status, fault, column] = [HEAD.read.status, HEAD.read.fault, HEAD.read.column].map((read) => read(bytes, at));
  if (status !== STATUS.fault) return { status } as NoValue;
  const text = faultText(instance, fault);
  if (fault === START_FAULT) {
    return { status, fault, step, start: outOf(rewritten(instance, "nissy_start", step)), text };
  }
  return { status, fault, column, character: characterAt(line, column), text } as NoValue;
}

/** The same of a call on two lines, of which one has the fault, or both together, at no column. */
export function refusalOfTwo(instance: Instance, first: Text, second: Text): OfTwo {
  const [line, column] = [instance.answered(HEAD.read.line), instance.answered(HEAD.read.column)];
  const refused = refusal(instance, line === 1 ? first : second);
  if (column > 0 || refused.status !== STATUS.fault) return Object.assign(refused, { line });
  return { ...refused, column: null, character: null, line } as unknown as OfTwo;
}

/** A call that writes a line. */
export function written<Refused extends NoValue>(
  instance: Instance, name: string, given: Given[], refused = (): NoValue | Refused => refusal(instance),
): LineReply | Refused {
  const places = instance.ask(name, [...given, { room: LINE_ROOM }]);
  if (instance.status !== STATUS.done) return refused();
  const length = instance.answered(LINE_ANSWER.read.length);
  return { status: STATUS.done, out: instance.memory.text(places[given.length], length) };
}

export const rewritten = (instance: Instance, name: string, line: Text): LineReply =>
  written(instance, name, [{ text: line }], () => refusal(instance, line));

export const lineAfterOf = (
  instance: Instance, { scramble, soFar }: RequestOf<"lineAfter">,
): LineReply | OfTwo => written(instance, "nissy_line_after", [{ text: scramble }, { text: soFar }],
  () => refusalOfTwo(instance, scramble, soFar));

/** The struct of an answer that has a value, copied. */
const seen = (instance: Instance, { bytes }: Struct): Seen =>
  ({ status: instance.status as Seen["status"], answer: instance.memory.copy(instance.answer, bytes), at: 0 });

function solvedIn<Out>(
  instance: Instance, request: SolveRequest, room: number, read: (at: number, length: number) => Out,
): Seen & { out: Out } | NoValue {
  const { step, line, after } = request;
  const tables = BigInt(instance.tablesOf(step));
  const lines = after === undefined ? [{ text: line }] : [{ text: line }, { text: after }];
  const given = [tables, ...lines, ...boundsOf(request), { room }];
  const places = instance.ask(after === undefined ? "nissy_solve" : "nissy_solve_after", given);
  if (!hasValue(instance.status)) return refusal(instance, line, step);
  const out = read(places[given.length - 1], instance.answered(SEARCH_ANSWER.read.length));
  return { ...seen(instance, SEARCH_ANSWER), out };
}

export function solved(instance: Instance, request: SolveRequest): SolveReply {
  const wanted = request.most * SOLUTION;
  for (const room of SOLUTION_ROOMS.filter((_, nth) => nth === 0 || SOLUTION_ROOMS[nth - 1] < wanted)) {
    const reply = solvedIn(instance, request, room, (at, length) => instance.memory.text(at, length));
    if (reply.status !== STATUS.room) return reply;
  }
  return { status: STATUS.room };
}

/** The same for a few solutions, as bytes in the module's memory until its next call: pieces leave nothing behind. */
export const solvedBytes = (instance: Instance, request: SolveRequest): SolveBytesReply =>
  solvedIn(instance, request, request.most * SOLUTION, (at, length) => instance.memory.bytes(at, length));

export function counted(instance: Instance, request: RequestOf<"count">): Seen | NoValue {
  const { step, line } = request;
  instance.ask("nissy_count", [BigInt(instance.tablesOf(step)), { text: line }, ...boundsOf(request)]);
  return hasValue(instance.status) ? seen(instance, SEARCH_ANSWER) : refusal(instance, line, step);
}

export function factsOf(instance: Instance, { line }: RequestOf<"facts">): Seen | NoValue {
  instance.ask("nissy_facts", [{ text: line }]);
  return hasValue(instance.status) ? seen(instance, FACTS_ANSWER) : refusal(instance, line);
}

export function checked(instance: Instance, { scramble, solution }: RequestOf<"check">): Seen | OfTwo {
  instance.ask("nissy_check", [{ text: scramble }, { text: solution }]);
  return hasValue(instance.status) ? seen(instance, CHECK_ANSWER) : refusalOfTwo(instance, scramble, solution);
}

/** How many bytes are lent for the tables of a run at first: those of any step fit, so that a page takes the same
 * memory from call to call. Longer words take more. */
const FIRST_LENT = 3 * 1_048_576;
const MOST_LENT = 1_024 * 1_048_576;

/** The room for the output of a run at first, beside eight bytes for each byte of the input, and the greatest. */
const FIRST_ROOM = 65_536;
const MOST_ROOM = 512 * 1_048_576;

/** By how much either grows if it was too small. */
const GROWTH = 8;

const OUT_OF_MEMORY = "nissy: out of memory\n";

/** Makes a run, and makes it again with more as long as it had too little, up to the most. */
function withEnough(
  first: number, most: number, run: (amount: number) => Answer, hadTooLittle: (answer: Answer) => boolean,
): Answer {
  for (let amount = first; ; amount = Math.min(amount * GROWTH, most)) {
    const answer = run(amount);
    if (amount >= most || !hadTooLittle(answer)) return answer;
  }
}

const isRefusedMemory = (answer: Answer) => answer.status === STATUS.stopped && textIn(answer.err) === OUT_OF_MEMORY;

/** @param room for the output, and `lent` that for the tables, in bytes */
function runOnce(instance: Instance, { words, input }: RequestOf<"run">, room: number, lent: number): Answer {
  const { memory } = instance;
  const given = [{ lent }, { text: words }, { text: input }, { room }, { room: ERROR_ROOM }];
  const [lending, , , out, err] = instance.ask("nissy_run", given);
  if (ROOM.read.size(memory.all, lending) !== lent) {
    instance.isBroken = true;
    throw new Error("the module kept memory that it was lent");
  }
  return {
    status: instance.status,
    out: memory.copy(out, instance.answered(RUN_ANSWER.read.outLength)),
    err: memory.copy(err, instance.answered(RUN_ANSWER.read.errLength)),
    full: instance.answered(RUN_ANSWER.read.outTooSmall) !== 0,
  };
}

export function runIn(instance: Instance, request: RequestOf<"run">): Answer {
  const withRoom = (size: number) =>
    withEnough(FIRST_LENT, MOST_LENT, (lent) => runOnce(instance, request, size, lent), isRefusedMemory);
  if (request.room !== undefined) return withRoom(request.room);
  return withEnough(FIRST_ROOM + 8 * request.input.length, MOST_ROOM, withRoom, (answer) => answer.full);
}
