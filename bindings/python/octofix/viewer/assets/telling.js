// What is said of a voxel and of heights.

import {ORIGIN, UNKNOWN, classOf} from "./tree.js";

export const NAMES = ["unknown", "free", "occupied"];

// Metres as text, of a number of half voxels from the origin. (Both are whole, so that the text is
// exact.)
export const metres = (halves, nanometres) => String(halves * nanometres / 2e9);

export const middleOf = (key, nanometres) => metres(2 * (key - ORIGIN) + 1, nanometres);
export const lowerFaceOf = (key, nanometres) => metres(2 * (key - ORIGIN), nanometres);

// The centre of a voxel where the map's origin lies at these metres.
const placed = (key, nanometres, origin) => key.map((it, axis) =>
  Number((origin[axis] + Number(middleOf(it, nanometres))).toFixed(6))).join(" ");

// A line on what a cast met: class, centre, value where there is one, key, and block.
export function lineOn({key, node, size}, tree, nanometres, origin) {
  const centre = key.map(it => middleOf(it, nanometres)).join(" ");
  const parts = [`${NAMES[classOf(node)]} at ${centre} m`];
  if (origin) parts.push(`with the origin ${placed(key, nanometres, origin)} m`);
  const value = tree.valueOf(node);
  if (value !== undefined) {
    const probability = 1 / (1 + Math.exp(-value / 1000));
    parts.push(`value ${value}, probability ${probability.toFixed(3)}`);
  }
  parts.push(`key ${key.join(" ")}`);
  if (size > 1 && classOf(node) !== UNKNOWN)
    parts.push(`in a block of ${metres(2 * size, nanometres)} m`);
  return parts.join("; ");
}
