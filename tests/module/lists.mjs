// Tries what the page makes of a step's solutions: all moves with each, beside a count of the merged lines; twins, which have the same case; and
// what is left out, since it was reached before its last move.
import { Nissy } from "../../build/web/module/nissy.js";
import { rowsOfList } from "../../build/web/page/answers/list-rows.js";
import { positionAfter, totalsWith } from "../../build/web/page/answers/position-after.js";
import { ORIENTATIONS, REDUCTIONS, partOn, reductionsAfter } from "../../build/web/page/shared/offered-steps.js";
import { ended, moduleBytes, same } from "./tally.mjs";

const OPPOSITE = { U: "D", D: "U", R: "L", L: "R", F: "B", B: "F" };
const QUARTERS = { "": 1, 2: 2, "'": 3 };
const SIDES = ["normal", "inverse"];
const AXES = ["UD", "RL", "FB"];
const nissy = await Nissy.load(moduleBytes);

/** How many moves some turns have once those of one face are merged that only turns of the opposite face stand between. */
function merged(text) {
  const made = [];
  for (const turn of text.split(" ").filter(Boolean)) {
    let at = made.length - 1;
    while (at >= 0 && made[at].face === OPPOSITE[turn[0]]) at--;
    if (at < 0 || made[at].face !== turn[0]) made.push({ face: turn[0], quarters: QUARTERS[turn.slice(1)] });
    else made[at].quarters = (made[at].quarters + QUARTERS[turn.slice(1)]) % 4;
    if (at >= 0 && made[at].quarters === 0) made.splice(at, 1);
  }
  return made.length;
}

const inAll = (parts) => SIDES.reduce((sum, side) => sum + merged(parts.map((part) => part[side]).join(" ")), 0);

/** Moves, and those that end otherwise. */
function twinsOf({ moves, others }) {
  const own = moves.split(" ");
  return [moves, ...others.map((end) => [...own.slice(0, own.length - end.split(" ").length), end].join(" "))];
}

let mergedSome = 0;

/** All moves with each solution of a step that merges with some of them. */
function tryList(scramble, parts, step) {
  const { lines, made, count } = positionAfter(nissy, scramble, parts);
  same(`${scramble}, ${JSON.stringify(parts)}: how many moves were made`, count, inAll(parts));
  for (const side of [...SIDES, "both"]) {
    const list = side === "both" ? nissy.solve(step, lines.normal, { sides: side }) : nissy.solve(step, lines[side], { slack: 1 });
    const steps = list.map((each) => (side === "both" ? each : partOn(side, each.moves)));
    const totals = steps.map((each) => inAll([...parts, each]));
    same(`${scramble}, ${JSON.stringify(parts)}: ${step} on the ${side} side`, totalsWith(nissy, made, steps), totals);
    mergedSome += list.filter(({ length }, at) => totals[at] < inAll(parts) + length).length;
  }
}

/** Twins reach the same case, and what is left out was reached before its last move, whichever of two opposite turns comes first. */
function tryTwins(step, line) {
  const isReached = (turns) => nissy.facts(`${line} ${turns.join(" ")}`).holds.includes(step);
  const isEarlier = ({ moves }) => {
    const turns = moves.split(" ");
    const commutes = turns.length > 1 && AXES.some((axis) => turns.slice(-2).every((turn) => axis.includes(turn[0])));
    return isReached(turns.slice(0, -1)) || (commutes && isReached([...turns.slice(0, -2), ...turns.slice(-1)]));
  };
  const every = nissy.solve(step, line, { slack: 1 });
  const left = every.filter((each) => each.moves === "" || !isEarlier(each)).map(({ moves }) => moves);
  const { entries, all } = rowsOfList(nissy, { list: { step, side: "normal", slack: 1, isAll: false }, scramble: line, parts: [] });
  const whole = entries.map(twinsOf);
  same(`${step} after ${line}: each is in a group`, [whole.flat().sort(), all], [[...left].sort(), left.length]);
  same(`${step} after ${line}: some are left out, some are twins`, [left.length < every.length, entries.length < all], [true, true]);
  const axes = REDUCTIONS.filter(({ name, needs }) => needs === step || name === step).map(({ axis }) => axis);
  const casesOf = (moves) => axes.map((axis) => nissy.facts(`${line} ${moves}`).case[axis]).join();
  same(`${step} after ${line}: twins have one case`, whole.filter((twins) => new Set(twins.map(casesOf)).size !== 1), []);
}

same("merging", ["R R", "R L R", "R R'", "F R L R2 L' F"].map(merged), [1, 2, 0, 3]);
for (const scramble of [20261127, 20261128, 20261129].map((seed) => nissy.scramble(seed, 1, 25))) {
  tryList(scramble, [{ normal: "R U2 D", inverse: "F B2" }], "eorl");
  const [{ moves }] = nissy.solve("eofb", nissy.invert(scramble));
  for (const { name } of reductionsAfter("eofb")) tryList(scramble, [partOn("inverse", moves)], name);
  for (const { name } of ORIENTATIONS) for (const line of [scramble, nissy.invert(scramble)]) tryTwins(name, line);
}
tryTwins("drud-eofb", "R2 L D' U R L' D");
same("lists in which moves merge", mergedSome > 0, true);
ended();
