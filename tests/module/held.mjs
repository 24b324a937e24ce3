// Tries how the page reads drawn attempts whose steps turn the whole cube, by rotations, slices and wide turns, on both sides and in the scramble:
// by face turns alone they still solve.
import { Nissy } from "../../build/web/module/nissy.js";
import { readWritten } from "../../build/web/page/answers/read-lines.js";
import { bracketed } from "../../build/web/page/shared/offered-steps.js";
import { TURNS, drawn, ended, moduleBytes, same } from "./tally.mjs";

const TURNING = ["x", "y", "z", "x2", "y'", "z2", "Rw", "Uw2", "Fw'", "M", "E'", "S2"];
const ATTEMPTS = 400;
const nissy = await Nissy.load(moduleBytes);

const oneOf = (list) => list[drawn(list.length)];
const run = () => Array.from({ length: 1 + drawn(3) }, () => oneOf(drawn(4) === 0 ? TURNING : TURNS)).join(" ");
const KINDS = [run, () => `(${run()})`, () => `${run()} (${run()})`, () => `(${run()}) ${run()}`, () => oneOf(TURNING)];
const stepsOf = (kinds) => Array.from({ length: 2 + drawn(4) }, () => oneOf(kinds)());

/** The moves of a line as one sequence of face turns, and what turns the whole cube after them. */
function parted(line) {
  const whole = nissy.cleanup(nissy.unniss(line)).split(" ");
  return [/^[UDRLFB]/, /^[xyz]/].map((kind) => whole.filter((each) => kind.test(each)).join(" "));
}

/** An attempt that solves its scramble, which has these face turns. */
function tryAttempt(scramble, faces, steps) {
  const text = [scramble, "", ...steps.map((step, at) => `${step} // step ${at + 1}`)].join("\n");
  same(`it solves: ${text}`, nissy.checkAttempts(text).map(({ check }) => check?.solved), [true]);
  const { parts, unread } = readWritten(nissy, { text, at: 0 });
  const line = bracketed(parts);
  same(`by face turns, ${line}, of ${text}`, [unread, /^[UDRLFB2'() ]*$/.test(line), nissy.check(faces, line).solved], [null, true, true]);
}

for (let left = ATTEMPTS; left > 0; left -= 1) {
  const steps = stepsOf(KINDS);
  const scramble = nissy.invert(parted(steps.join(" "))[0]);
  if (scramble !== "") tryAttempt(scramble, scramble, steps);
}
for (let left = ATTEMPTS; left > 0; left -= 1) {
  const [turned, steps] = [`R ${run()} ${oneOf(TURNING)}`, stepsOf([run])];
  const [made, held] = parted([turned, ...steps].join(" "));
  const last = [held, made].filter(Boolean).map((each) => nissy.invert(each)).join(" ");
  if (last !== "" && parted(turned)[0] !== "") tryAttempt(turned, parted(turned)[0], [...steps, last]);
}
ended();
