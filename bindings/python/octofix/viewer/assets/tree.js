// The map: an octree of classes, and of values where it has its own.

export const UNKNOWN = 0, FREE = 1, OCCUPIED = 2;
const PARTED = 3;
// The edge of the greatest parts in voxels, and the key of the voxel that begins at the origin.
export const LARGEST = 1 << 15, ORIGIN = 1 << 15;

// A node is a block of one class, with its number among the known ones, or a group of eight parts.
export const classOf = node => node & 3;
export const isParted = node => classOf(node) === PARTED;
export const numberOf = node => node >> 2;

const partAt = (x, y, z, size) => (x & size ? 1 : 0) + (y & size ? 2 : 0) + (z & size ? 4 : 0);

export class Tree {
  // nodes: the eight of each group, level by level; ends: where each level ends among them; values:
  // of the known blocks, in that order, or none.
  constructor(nodes, ends, values) {
    Object.assign(this, {nodes, ends, values});
  }

  part(group, part) {
    return this.nodes[8 * group + part];
  }

  // The block that holds a voxel: its node, and its edge in voxels.
  blockAt(x, y, z) {
    if (!this.nodes.length) return {node: UNKNOWN, size: LARGEST};
    for (let group = 0, size = LARGEST; ; size >>= 1) {
      const node = this.part(group, partAt(x, y, z, size));
      if (!isParted(node)) return {node, size};
      group = numberOf(node);
    }
  }

  // What stands where a block of this edge would be: a block that holds it, or a group.
  nodeAt(x, y, z, edge) {
    if ((x | y | z) & ~(2 * LARGEST - 1)) return UNKNOWN;
    for (let group = 0, size = LARGEST; ; size >>= 1) {
      const node = this.part(group, partAt(x, y, z, size));
      if (size === edge || !isParted(node)) return node;
      group = numberOf(node);
    }
  }

  // The value of a known block in thousandths of log-odds, where the map has values of its own.
  valueOf(node) {
    return classOf(node) === UNKNOWN ? undefined : this.values?.[numberOf(node)];
  }

  // The tree down to a depth, at which a block has the greatest class in it.
  coarse(depth) {
    const nodes = this.nodes.slice(0, this.ends[depth - 1]);
    const greatest = this.greatestClasses();
    for (let at = this.ends[depth - 2] || 0; at < nodes.length; at++)
      if (isParted(nodes[at])) nodes[at] = greatest[numberOf(nodes[at])];
    return new Tree(nodes, this.ends.slice(0, depth));
  }

  // The greatest class in each group. (Parts come after what they are parts of.)
  greatestClasses() {
    const greatest = new Uint8Array(this.nodes.length / 8);
    for (let at = this.nodes.length - 1; at >= 0; at--) {
      const node = this.nodes[at], group = at >> 3;
      const one = isParted(node) ? greatest[numberOf(node)] : classOf(node);
      greatest[group] = Math.max(greatest[group], one);
    }
    return greatest;
  }
}

// Reads the tree of the page: of each group a word with two bits for each part; and four bytes of
// each value, all lowest bytes first.
export async function readTree(packedWords, packedValues) {
  const nodes = nodesOf(await unpacked(packedWords));
  const values = packedValues ? valuesOf(await unpacked(packedValues)) : undefined;
  return new Tree(nodes, endsOf(nodes), values);
}

export const bytesOf = text => Uint8Array.from(atob(text), it => it.charCodeAt(0));

async function unpacked(text) {
  const stream = new Blob([bytesOf(text)]).stream().pipeThrough(new DecompressionStream("gzip"));
  return new Uint8Array(await new Response(stream).arrayBuffer());
}

function nodesOf(bytes) {
  const nodes = new Int32Array(4 * bytes.length);
  for (let at = 0, groups = 1, blocks = 0; at < nodes.length; at++) {
    const found = bytes[at >> 2] >> 2 * (at & 3) & 3;
    if (found === PARTED) nodes[at] = groups++ << 2 | PARTED;
    else if (found !== UNKNOWN) nodes[at] = blocks++ << 2 | found;
  }
  return nodes;
}

function endsOf(nodes) {
  const ends = [];
  for (let begin = 0, end = 8; begin < nodes.length; ) {
    ends.push(end);
    const parted = nodes.subarray(begin, end).reduce((sum, it) => sum + isParted(it), 0);
    [begin, end] = [end, end + 8 * parted];
  }
  return ends;
}

function valuesOf(bytes) {
  const many = bytes.length / 4;
  return Int32Array.from({length: many}, (_, at) =>
    bytes[at] | bytes[at + many] << 8 | bytes[at + 2 * many] << 16 | bytes[at + 3 * many] << 24);
}
