// Why a piece is good or bad, in a sentence: which of its colours tells, on which face that belongs, and where it is.
import { CORNER_PLACES, EDGE_PLACES } from "../../module/shared/facts.js";
import { stickersOf } from "../../module/shared/stickers.js";
import { present } from "../shared/certain.js";

/** The axes in the order in which their colours tell; that of the step itself comes second. */
const TELLING_AXES = ["U/D", "F/B", "R/L"];
/** The pieces by their faces: each edge, and then each corner. */
export const PIECES = [...EDGE_PLACES, ...CORNER_PLACES];

const eitherOf = (axis: string) => axis.replace("/", " or ");

/** Which of some faces is of the first axis that has one of them. */
const whichTells = (faces: string[], axes: string[]) =>
  present(axes.map((axis) => faces.findIndex((face) => axis.includes(face))).find((at) => at >= 0));

/** @param colours that an edge has on the faces where it is */
function edgeOriented(faces: string[], colours: string[], axis: string) {
  const [first, last] = TELLING_AXES.filter((each) => each !== axis);
  const axes = [first, axis, last];
  const [told, telling] = [whichTells(colours, axes), whichTells(faces, axes)];
  const rule = `${eitherOf(first)} tells, else ${eitherOf(axis)}`;
  if (told === telling) return `good for EO ${axis}: its ${colours[told]} is on ${faces[told]} (${rule})`;
  return `bad for EO ${axis}: its ${colours[told]} is on ${faces[told]}, not on ${faces[telling]} (${rule})`;
}

function edgePlaced(faces: string[], colours: string[], axis: string) {
  const isIn = (letters: string[]) => !letters.some((each) => axis.includes(each));
  const [where, has] = isIn(colours) ? ["in the slice", "has no"] : ["outside the slice", "has"];
  const why = `since it ${has} ${eitherOf(axis)}`;
  if (isIn(colours) === isIn(faces)) return `good for DR ${axis}: it is ${where}, and belongs there, ${why}`;
  return `bad for DR ${axis}: it belongs ${where}, ${why}`;
}

function cornerOriented(faces: string[], colours: string[], axis: string) {
  const at = colours.findIndex((colour) => axis.includes(colour));
  if (axis.includes(faces[at])) return `good for DR ${axis}: its ${colours[at]} is on ${faces[at]}`;
  return `bad for DR ${axis}: its ${colours[at]} belongs on ${eitherOf(axis)}, and is on ${faces[at]}`;
}

/** @param choice what is marked on the cube, such as `EO F/B`, or "" for each axis */
export function whyOf(letters: string, name: typeof PIECES[number], choice: string) {
  const [faces, colours] = [[...name], stickersOf([name]).map((place) => letters[place])];
  const [kind, wanted] = choice.split(" ");
  const ofEdge = kind === "DR" ? edgePlaced : edgeOriented;
  const told = faces.length === 2 ? ofEdge : cornerOriented;
  const axes = wanted === undefined ? TELLING_AXES : [wanted];
  const piece = PIECES.find((each) =>
    each.length === colours.length && colours.every((colour) => each.includes(colour)));
  return `${piece === name ? "" : `${piece} at `}${name} is ${axes.map((axis) =>
    told(faces, colours, axis)).join("; ")}.`;
}
