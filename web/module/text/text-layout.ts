// The structs of include/nissy_text.h, which tests/module/layout.mjs holds beside these.
import { CHECK_ANSWER } from "../shared/layout.js";
import { struct } from "../shared/structs.js";

export const PLAIN_ANSWER = struct({ status: 1, leftOut: 1, length: 8 });
export const TEXT_LINE = struct({
  kind: 1, solution: 1, headed: 1, labelled: 1, inverse: 1, doubt: 1, attempt: 8, group: 8, begin: 8, headEnd: 8,
  labelBegin: 8, labelEnd: 8, moves: 8, comment: 8, end: 8, doubtAt: 8,
});
export const MOVES_PART = struct({ begin: 8, end: 8, leftOut: 1 });
export const TEXT_ANSWER = struct({ status: 1, lines: 8, attempts: 8 });
export const KNOWN_PART = struct({
  scramble: 8, begin: 8, nameBegin: 8, nameEnd: 8, firstLine: 8, solutionEnd: 8, endLine: 8,
});
export const KNOWN_ANSWER = struct({ status: 1, lines: 8, parts: 8 });
export const ATTEMPT_CHECK = struct({
  scramble: 8, nameBegin: 8, nameEnd: 8, firstLine: 8, endLine: 8, faultAt: 8, doubtAt: 8, doubt: 1, doubted: 1,
  checked: 1, check: CHECK_ANSWER,
});
export const ATTEMPTS_ANSWER = struct({ status: 1, attempts: 8 });
