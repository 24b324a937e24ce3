// Draws a cube as a net, as SVG: its stickers, with a ring and a dot, or in grey, if pieces are marked.
import { NET, type NetPlace } from "../../module/shared/stickers.js";
import { present } from "../shared/certain.js";
import { inner } from "../shared/element.js";

const SVG = "http://www.w3.org/2000/svg";
const PITCH = 10;
const GAP = 2;
/** A ring around the letter, with a dot on its corner, both of one turn so that they are one. */
const MARK = "M1 1h8v8H1zM1.9 1.9v6.2h6.2V1.9zM7.8 1a1.2 1.2 0 1 1-.01 0z";

function shape(name: string, attributes: Record<string, string | number>) {
  const made = document.createElementNS(SVG, name);
  for (const [key, value] of Object.entries(attributes)) made.setAttribute(key, String(value));
  return made;
}

const distanceOf = (number: number) => number * PITCH + Math.floor(number / 3) * GAP;

function emptySticker() {
  // the label of the net has all letters, by faces
  const group = shape("g", { class: "sticker", "aria-hidden": "true" });
  const colour = shape("rect", { x: 0.6, y: 0.6, width: PITCH - 1.2, height: PITCH - 1.2, rx: 1.4 });
  const letter = shape("text", { x: PITCH / 2, y: PITCH / 2 + 2, "text-anchor": "middle" });
  letter.append("");
  group.append(colour, letter, shape("path", { class: "mark", d: MARK }));
  return group;
}

/** A copy of a sticker, which takes a third of the time that another one would. */
function copiedTo({ row, column }: NetPlace, sticker: SVGElement) {
  const copy = sticker.cloneNode(true) as SVGElement;
  copy.setAttribute("transform", `translate(${distanceOf(column)} ${distanceOf(row)})`);
  return copy;
}

/** An empty net, with its 54 stickers in the order of the engine's letters. */
export function emptyNet() {
  const sticker = emptySticker();
  const viewBox = `-1 -1 ${distanceOf(12)} ${distanceOf(9)}`;
  const net = shape("svg", { viewBox, preserveAspectRatio: "xMinYMid", role: "img", class: "net" });
  // above all stickers, so that none of them hides a part of it
  net.append(...NET.map((place) => copiedTo(place, sticker)), shape("path", { class: "asked" }));
  return net;
}

/** Draws a line round some stickers, and round no others. */
export function outline(net: SVGElement, places: number[]) {
  const round = places.map((place) => `M${distanceOf(NET[place].column)} ${distanceOf(NET[place].row)}h10v10h-10z`);
  inner(net, ".asked").setAttribute("d", round.join(""));
}

/** In which of a net's stickers an element is; -1 if in none. */
export const stickerOf = (net: SVGElement, target: Element) =>
  [...net.querySelectorAll(".sticker")].findIndex((sticker) => sticker === target.closest(".sticker"));

function inWords(letters: string) {
  return [..."URFDLB"].map((name, face) => {
    const rows = [0, 3, 6].map((row) => [...letters.slice(9 * face + row, 9 * face + row + 3)].join(" "));
    return `face ${name}: ${rows.join(", ")}`;
  }).join("; ");
}

/** Shows the engine's 54 letters on a net. @param marked the places that are marked, or null */
export function showCube(net: SVGElement, letters: string, title: string, marked: Set<number> | null) {
  net.setAttribute("aria-label", `${title}; ${inWords(letters)}`);
  net.classList.toggle("marked", marked !== null);
  net.querySelectorAll(".sticker").forEach((sticker, at) => {
    const isBad = marked !== null && marked.has(at);
    sticker.classList.toggle("bad", isBad);
    // what stays in grey, or in its colour, has its style already
    const shown = marked === null || isBad ? letters[at] : "";
    if (sticker.dataset.shown !== shown) sticker.dataset.shown = shown;
    // a text that is put in again is laid out again, and another one in its place has to be made
    if (sticker.dataset.colour === letters[at]) return;
    sticker.dataset.colour = letters[at];
    present(inner(sticker, "text").firstChild).nodeValue = letters[at];
  });
}
