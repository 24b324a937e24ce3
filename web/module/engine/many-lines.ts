// Searches and facts of many lines. Those that the module takes many of in one call go to it in pieces.
import { endsAll, type AllReply, type AllRequest } from "../calls/many.js";
import { CHECK_ANSWER, FACTS_ANSWER, LINES_ANSWER, SEARCH_ANSWER } from "../shared/layout.js";
import { STATUS, hasValue, type Struct } from "../shared/structs.js";
import { boundsOf, refusal } from "./line-calls.js";
import { roomFor } from "./memory.js";
import { LINE_FEED, encoded, joinedBytes, type Text } from "../shared/bytes.js";
import type { Given, Instance } from "./instance.js";
import type { OfEach, Pair } from "../calls/requests.js";
import type { OneReply } from "../calls/replies.js";

/** So many lines go to the module at once, of so many bytes unless the first one has more. */
const MOST_LINES = 256;
const MOST_OF_TEXT = 262_144;

/** The struct of an answer that has all that is told. */
const STRUCTS: { [Call in OfEach["call"]]?: Struct } =
  { facts: FACTS_ANSWER, count: SEARCH_ANSWER, check: CHECK_ANSWER };

const hasLineFeed = (line: Text) => (typeof line === "string" ? line.includes("\n") : line.includes(LINE_FEED));

const TOO_LONG = { status: STATUS.stopped } as const;

/** The piece that begins with this line: no line of it is too long, or has a line feed and so would be two. */
function pieceFrom(lines: (Text | null)[], begin: number) {
  const most = Math.min(lines.length, begin + MOST_LINES);
  let end = begin;
  for (let bytes = 0; end < most; end += 1) {
    const line = lines[end];
    if (line === null || hasLineFeed(line)) break;
    bytes += roomFor(line) + 1;
    if (end > begin && bytes > MOST_OF_TEXT) break;
  }
  return lines.slice(begin, end) as Text[];
}

function joinedLines(lines: Text[]): Text {
  if (lines.every((line) => typeof line === "string")) return `${lines.join("\n")}\n`;
  const feed = Uint8Array.of(LINE_FEED);
  return joinedBytes(lines.flatMap((line) => [typeof line === "string" ? encoded(line) : line, feed]));
}

/** Takes the reply to the next line, and says whether it ends the call. */
function take(replies: AllReply, request: AllRequest, reply: OneReply): boolean {
  const { count, size, values, others } = replies;
  const isLast = endsAll(request, reply);
  if (size > 0 && "answer" in reply && !isLast) values.set(reply.answer, count * size);
  else others.push([count, reply]);
  replies.count += 1;
  return isLast;
}

/** What is asked of many lines by one call of the module, of a step if it has one. */
type Question = { name: string; step?: string; given: (lines: Given, answers: Given) => Given[] };

/** Asks the module of a piece, and says whether a reply of it ends the call. */
function takePiece(
  replies: AllReply, instance: Instance, request: AllRequest, { name, step, given }: Question, lines: Text[],
): boolean {
  const { size } = replies;
  const all = given({ text: joinedLines(lines) }, { rows: lines.length, of: { bytes: size } });
  const places = instance.ask(name, all);
  const isWhole = instance.answered(LINES_ANSWER.read.lines) === lines.length;
  if (!isWhole) throw new Error("the module took other lines than it was given");
  // a copy, since the module is asked for the words of a fault, which it may write over them
  const answers = instance.memory.copy(places[all.length - 1], lines.length * size);
  replies.values.set(answers, replies.count * size);
  let isLast = false;
  for (let nth = 0; nth < lines.length && !isLast; nth += 1) {
    if (hasValue(answers[nth * size])) replies.count += 1;
    else isLast = take(replies, request, refusal(instance, lines[nth], step, answers, nth * size));
  }
  return isLast;
}

/** What is asked of many lines at once, or null if each has to be asked by itself: the module has no such call, or the
 * first fault, or the first search that is cut, ends all, so that what is after it isn't searched. */
function questionOf(instance: Instance, { each, faults }: AllRequest): Question | null {
  if (each.call === "facts") return { name: "nissy_facts_lines", given: (lines, answers) => [lines, answers] };
  if (each.call === "best" || each.call === "check") return null;
  // a step that isn't there is told though there may be no line
  const tables = BigInt(instance.tablesOf(each.step));
  const goesOn = faults === "value" && (each.nodes === Infinity || each.cut === "value");
  if (each.call !== "count" || !goesOn) return null;
  const given = (lines: Given, answers: Given) => [tables, lines, ...boundsOf(each), answers];
  return { name: "nissy_count_lines", step: each.step, given };
}

/** The reply to a line by itself, of which too many bytes may have been given. */
function replyTo(each: OfEach, line: Text | Pair | null, answer: (asked: OfEach) => OneReply): OneReply {
  if (each.call === "check") {
    const { scramble, solution } = line as Pair;
    if (scramble !== null && solution !== null) return answer({ ...each, scramble, solution });
    return { ...TOO_LONG, line: scramble === null ? 1 : 2 };
  }
  const own = line as Text | null;
  if (own === null) return TOO_LONG;
  return answer(each.call === "best" ? { ...each, scramble: own } : { ...each, line: own });
}

/** Answers lines in turn, up to the first whose answer ends the call. */
export function answerAll(instance: Instance, request: AllRequest, answer: (asked: OfEach) => OneReply): AllReply {
  const { each, lines } = request;
  const question = questionOf(instance, request);
  const size = STRUCTS[each.call]?.bytes ?? 0;
  const replies: AllReply = { count: 0, size, values: new Uint8Array(size * lines.length), others: [] };
  for (let isLast = false; replies.count < lines.length && !isLast;) {
    const piece = question === null ? [] : pieceFrom(lines as (Text | null)[], replies.count);
    if (question !== null && piece.length > 0) isLast = takePiece(replies, instance, request, question, piece);
    else isLast = take(replies, request, replyTo(each, lines[replies.count], answer));
  }
  return replies;
}
