// Trees of the viewer, made of the blocks of a map, or of two maps side by side.

import {FREE, LARGEST, OCCUPIED, Tree, UNKNOWN, classOf, isParted, numberOf} from "./tree.js";

const DEEPEST = 16;

// Numbers, as many as come.
export class Growing {
  constructor(kind = Int32Array) {
    this.numbers = new kind(1 << 12);
    this.length = 0;
  }

  push(number) {
    if (this.length === this.numbers.length) {
      const more = new this.numbers.constructor(2 * this.length);
      more.set(this.numbers);
      this.numbers = more;
    }
    this.numbers[this.length++] = number;
  }

  get all() {
    return this.numbers.slice(0, this.length);
  }
}

// The tree of blocks in Morton order (`depth` and `index` of each); `classAt` has their classes.
export function treeOf(blocks, classAt) {
  const maker = new TreeMaker(blocks, classAt), ends = [];
  let ranges = Int32Array.of(0, blocks.depth.length);
  for (let level = 0; ranges.length && blocks.depth.length; level++) {
    ranges = maker.level(ranges, level);
    ends.push(maker.nodes.length);
  }
  return new Tree(maker.nodes.all, ends);
}

// The least box of keys that blocks lie in, or none.
export function boxOf({depth, index}) {
  if (!depth.length) return undefined;
  const low = [Infinity, Infinity, Infinity], high = [-Infinity, -Infinity, -Infinity];
  for (let at = 0; at < depth.length; at++) {
    const edge = 1 << DEEPEST - depth[at];
    for (let axis = 0; axis < 3; axis++) {
      const start = index[3 * at + axis] * edge;
      low[axis] = Math.min(low[axis], start);
      high[axis] = Math.max(high[axis], start + edge - 1);
    }
  }
  return {low, high};
}

class TreeMaker {
  constructor({depth, index}, classAt) {
    Object.assign(this, {depth, index, classAt, nodes: new Growing(), groups: 1});
  }

  // Makes the groups of a level, of blocks from one place up to another each, and answers the
  // ranges of the next.
  level(ranges, level) {
    const deeper = new Growing();
    for (let at = 0; at < ranges.length; at += 2)
      this.group(ranges[at], ranges[at + 1], level, deeper);
    return deeper.all;
  }

  group(start, end, level, deeper) {
    for (let part = 0, at = start; part < 8; part++) {
      const first = at;
      if (this.depth[first] === 0) {                    // (the whole map, eight times)
        this.nodes.push(this.classAt(first));
        continue;
      }
      while (at < end && this.partOf(at, level) === part) at++;
      if (at === first) this.nodes.push(UNKNOWN);
      else if (this.depth[first] === level + 1) this.nodes.push(this.classAt(first));
      else {
        this.nodes.push(this.groups++ << 2 | 3);
        deeper.push(first);
        deeper.push(at);
      }
    }
  }

  // Which part of its block of a level a block lies in.
  partOf(at, level) {
    const down = DEEPEST - this.depth[at], bit = DEEPEST - 1 - level, {index} = this;
    return index[3 * at] << down >> bit & 1 | (index[3 * at + 1] << down >> bit & 1) << 1 |
      (index[3 * at + 2] << down >> bit & 1) << 2;
  }
}

// Which voxels of two maps are drawn side by side.
export const SIDES_OF_TWO = ["both", "first", "second", "differing"];

// Two trees side by side: how many voxels have which classes in both (a row for each class of the
// first), and trees of the voxels that are occupied in both, in the first or the second while the
// other knows nothing there, and in one while they are free in the other.
export function overlay(first, second) {
  const found = new Overlay(first, second);
  found.walkRoots();
  const trees = found.blocks.map(({depth, index}) =>
    treeOf({depth: depth.all, index: index.all}, () => OCCUPIED));
  found.table[UNKNOWN][UNKNOWN] = 0;
  const named = Object.fromEntries(SIDES_OF_TWO.map((it, n) => [it, trees[n]]));
  return {table: found.table, trees: named};
}

class Overlay {
  constructor(first, second) {
    Object.assign(this, {first, second});
    this.table = [UNKNOWN, FREE, OCCUPIED].map(() => [0, 0, 0]);
    this.blocks = SIDES_OF_TWO.map(() =>
      ({depth: new Growing(Uint8Array), index: new Growing(Uint16Array)}));
  }

  walkRoots() {
    for (let part = 0; part < 8; part++)
      this.visit(rootPart(this.first, part), rootPart(this.second, part), LARGEST, 1,
        part & 1, part >> 1 & 1, part >> 2);
  }

  // Two nodes at one place: a block or a group each. Numbers are those of the blocks of the depth.
  visit(one, other, size, depth, x, y, z) {
    if (!isParted(one) && !isParted(other)) {
      this.count(classOf(one), classOf(other), size, depth, x, y, z);
      return;
    }
    for (let part = 0; part < 8; part++)
      this.visit(
        isParted(one) ? this.first.part(numberOf(one), part) : one,
        isParted(other) ? this.second.part(numberOf(other), part) : other,
        size / 2, depth + 1, 2 * x + (part & 1), 2 * y + (part >> 1 & 1), 2 * z + (part >> 2));
  }

  count(one, other, size, depth, x, y, z) {
    this.table[one][other] += size ** 3;
    const kind = kindOf(one, other);
    if (kind === undefined) return;
    const {depth: depths, index} = this.blocks[kind];
    depths.push(depth);
    for (const it of [x, y, z]) index.push(it);
  }
}

const rootPart = (tree, part) => tree.nodes.length ? tree.part(0, part) : UNKNOWN;

// Which of SIDES_OF_TWO two classes are, or none.
function kindOf(one, other) {
  if (one !== OCCUPIED && other !== OCCUPIED) return undefined;
  if (one === other) return 0;
  if (one === UNKNOWN || other === UNKNOWN) return one === OCCUPIED ? 1 : 2;
  return 3;
}
