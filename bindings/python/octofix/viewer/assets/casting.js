// What a straight way through the map meets first.

import {classOf} from "./tree.js";

// The first block on a way whose class is wanted, within a box from low up to, and without, high:
// the voxel's key, the block's node and edge, and how far along the way it is.
export function cast(tree, {start, way}, {low, high}, isWanted) {
  const [enter, leave] = spanIn(start, way, low, high);
  const step = 1e-4 / Math.max(...way.map(Math.abs));
  for (let part = enter + step; part < leave; ) {
    const key = way.map((it, n) =>
      Math.min(Math.max(Math.floor(start[n] + part * it), low[n]), high[n] - 1));
    const {node, size} = tree.blockAt(...key);
    if (isWanted(classOf(node))) return {key, node, size, part};
    part = Math.max(endOf(start, way, key, size), part) + step;
  }
  return undefined;
}

// From where to where a way is in a box.
export function spanIn(start, way, low, high) {
  let enter = 0, leave = Infinity;
  for (let axis = 0; axis < 3; axis++) {
    const a = (low[axis] - start[axis]) / way[axis], b = (high[axis] - start[axis]) / way[axis];
    enter = Math.max(enter, Math.min(a, b));
    leave = Math.min(leave, Math.max(a, b));
  }
  return [enter, leave];
}

// Where a way leaves the block of this edge that holds a voxel.
function endOf(start, way, key, size) {
  let end = Infinity;
  for (let axis = 0; axis < 3; axis++) {
    const low = key[axis] & -size, face = way[axis] > 0 ? low + size : low;
    if (way[axis]) end = Math.min(end, (face - start[axis]) / way[axis]);
  }
  return end;
}
