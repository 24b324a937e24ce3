// Tries what those need who draw a cube: names, and the stickers of pieces. Where they are in space and in the net tests/hosts tries.
import { AXES, CORNER_PLACES, EDGE_PLACES, NET, Nissy, STEPS, stickersOf } from "../../build/web/module/nissy.js";
import { TURNS, ended, moduleBytes, same, thrown } from "./tally.mjs";

const nissy = await Nissy.load(moduleBytes);

// a turn of one face leaves bad only the edges of that axis
same("the axes", AXES.map((axis) => TURNS.filter((turn) => nissy.facts(turn).badEdges[axis].length > 0)),
  [["F", "F'", "B", "B'"], ["R", "R'", "L", "L'"], ["U", "U'", "D", "D'"]].map((each) => TURNS.filter((turn) => each.includes(turn))));
same("none can be changed", [AXES, STEPS, EDGE_PLACES, CORNER_PLACES, NET, ...NET].every(Object.isFrozen), true);
const letters = nissy.facelets("");
const pieces = [...EDGE_PLACES, ...CORNER_PLACES];
same("the stickers of pieces", pieces.map((name) => stickersOf([name]).map((place) => letters[place]).join("")), pieces);
same("no place is that of two", new Set(stickersOf(pieces)).size, 48);
same("those of no piece", await thrown(() => stickersOf(["UQ"])), ["RangeError", "no place is called UQ"]);
const shownAt = (shown, stickers) => stickers.map((sticker) => shown[sticker]).join("");
for (const rotation of ["x", "y2", "z' y"]) {
  // facts name places by the centres, so that they show the same letters however the cube is held
  const [bad, held] = [nissy.facts(`R U F ${rotation}`).badEdges.fb, nissy.facelets(`R U F ${rotation}`)];
  same(`held by ${rotation}`, shownAt(held, stickersOf(bad, held)), shownAt(nissy.facelets("R U F"), stickersOf(bad)));
}
const withCentres = (centres) => [...letters].map((letter, at) => (at % 9 === 4 ? centres[(at - 4) / 9] : letter)).join("");
for (const [what, wrong] of [
  ["none", ""], ["null", null], ["one less", letters.slice(1)], ["one more", `${letters}B`], ["another letter", `u${letters.slice(1)}`],
  ["a line feed", `${letters.slice(1)}\n`], ["a centre twice", withCentres("URFULB")], ["a mirror's", withCentres("ULFDRB")],
  ["U beside D", withCentres("UDFRLB")],
]) same(`no letters of a cube: ${what}`, await thrown(() => stickersOf([], wrong)), ["RangeError", "these are not the 54 letters of a cube"]);
ended();
