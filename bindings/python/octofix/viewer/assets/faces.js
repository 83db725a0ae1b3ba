// The faces of blocks that can be seen, and the blocks through which a cut goes.

import {LARGEST, classOf, isParted, numberOf} from "./tree.js";

// A list of squares or blocks: of each the lowest corner, and the logarithm of its edge.
export class Squares {
  constructor() {
    this.numbers = new Uint16Array(4096);
    this.length = 0;
  }

  add(x, y, z, size) {
    if (4 * this.length === this.numbers.length) this.grow();
    const at = 4 * this.length++;
    this.numbers[at] = x;
    this.numbers[at + 1] = y;
    this.numbers[at + 2] = z;
    this.numbers[at + 3] = 31 - Math.clz32(size);
  }

  grow() {
    const more = new Uint16Array(2 * this.numbers.length);
    more.set(this.numbers);
    this.numbers = more;
  }
}

// A block's sides are numbered from 0 to 5: twice the axis, and one more for the upper side.
export const SIDES = [0, 1, 2, 3, 4, 5];

// The faces of all blocks of a class behind which one of these classes lies: a list for each side.
// Of some places of the tree alone, where they are given (see `placesOf`).
export function findFaces(tree, kind, behind, places = placesOf(tree, 1)) {
  const finder = new FaceFinder(tree, kind, behind);
  for (const it of places) finder.visit(...it);
  return finder.faces;
}

// The places of a tree at a depth that has at least so many, or its last one: of each its group,
// its part, its edge and its lowest corner. Together they hold all.
export function placesOf(tree, least) {
  const parts = (group, size, x, y, z) => [0, 1, 2, 3, 4, 5, 6, 7].map(it => [
    group, it, size, it & 1 ? x + size : x, it & 2 ? y + size : y, it & 4 ? z + size : z]);
  let found = tree.nodes.length ? parts(0, LARGEST, 0, 0, 0) : [], isDone = false;
  while (found.length < least && !isDone) {
    isDone = true;
    found = found.flatMap(place => {
      const [group, part, size, ...corner] = place, node = tree.part(group, part);
      if (!isParted(node)) return classOf(node) ? [place] : [];
      isDone = false;
      return parts(numberOf(node), size / 2, ...corner);
    });
  }
  return found;
}

class FaceFinder {
  constructor(tree, kind, behind) {
    this.tree = tree;
    this.kind = kind;
    this.isBehind = [0, 1, 2].map(it => behind.includes(it));
    this.faces = SIDES.map(() => new Squares());
  }

  visit(group, part, size, x, y, z) {
    const node = this.tree.part(group, part);
    if (isParted(node)) this.walk(numberOf(node), size / 2, x, y, z);
    else if (classOf(node) === this.kind)
      for (const side of SIDES)
        this.addFaces(side, this.beside(group, part, side, size, x, y, z), x, y, z, size);
  }

  walk(group, size, x, y, z) {
    for (let part = 0; part < 8; part++)
      this.visit(group, part, size,
        part & 1 ? x + size : x, part & 2 ? y + size : y, part & 4 ? z + size : z);
  }

  // What lies behind a side of a block: a part of the same group, or what is found from the root.
  beside(group, part, side, size, x, y, z) {
    const bit = 1 << (side >> 1), isUp = (side & 1) === 1;
    if (((part & bit) !== 0) !== isUp) return this.tree.part(group, part ^ bit);
    const step = isUp ? size : -size;
    return this.tree.nodeAt(
      bit & 1 ? x + step : x, bit & 2 ? y + step : y, bit & 4 ? z + step : z, size);
  }

  // Adds the faces of one side, each as large as it can be where what lies behind is parted.
  addFaces(side, node, x, y, z, size) {
    if (!isParted(node)) {
      if (this.isBehind[classOf(node)]) this.faces[side].add(x, y, z, size);
      return;
    }
    const axis = side >> 1, up = side & 1, half = size / 2;
    for (let part = 0; part < 8; part++) {
      if ((part >> axis & 1) === up) continue;        // (it doesn't touch the side)
      const place = up ? part | 1 << axis : part & ~(1 << axis);
      this.addFaces(side, this.tree.part(numberOf(node), part),
        place & 1 ? x + half : x, place & 2 ? y + half : y, place & 4 ? z + half : z, half);
    }
  }
}

// The blocks of a class that have a part in the layer of voxels at a height.
export function layerOf(tree, kind, height) {
  const found = new Squares();
  const walk = (group, size, x, y, z) => {
    const isUp = height >= z + size, low = isUp ? z + size : z;
    for (let part = isUp ? 4 : 0, end = part + 4; part < end; part++) {
      const node = tree.part(group, part);
      const a = part & 1 ? x + size : x, b = part & 2 ? y + size : y;
      if (isParted(node)) walk(numberOf(node), size / 2, a, b, low);
      else if (classOf(node) === kind) found.add(a, b, low, size);
    }
  };
  if (tree.nodes.length) walk(0, LARGEST, 0, 0, 0);
  return found;
}
