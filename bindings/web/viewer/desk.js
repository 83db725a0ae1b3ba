// The worker of the page: it has the library with its maps, and makes of them what is drawn.

import * as octofix from "../octofix.mjs";
import {answerCalls} from "../octofix-calls.mjs";
import {FREE, OCCUPIED, ORIGIN, UNKNOWN} from "./tree.js";
import {findFaces, layerOf, placesOf} from "./faces.js";
import {coarseFaces} from "./supply.js";
import {boxOf, overlay, treeOf} from "./trees.js";

const PARTS = 48;                       // in which faces are made, at least
const MOST_GROUPS = 2 ** 26;
const NEAR = 1e-8;                      // metres beyond a face
const BETWEEN = ["nothing", "occupied", "unknown"];

// How many voxels blocks have.
const voxelsIn = depth => depth.reduce((sum, it) => sum + 8 ** (16 - it), 0);

class Desk {
  constructor() {
    Object.assign(this, {shown: new Map(), count: 0});
  }

  async load(module, memory) {
    this.octofix = await octofix.load(module, {memory});
    return this.octofix.version;
  }

  keep(it) {
    this.shown.set(++this.count, it);
    return this.count;
  }

  of(number) {
    return this.shown.get(number);
  }

  // Opens a file, and tells of its map what has to be known before it is drawn.
  open(bytes) {
    const map = this.octofix.OccMap.open(bytes, {maxGroups: MOST_GROUPS});
    const occupied = map.leaves("occupied");
    const number = this.keep({map, trees: {occupied: treeOf(occupied, () => OCCUPIED)}});
    return {
      number, resolution: map.resolution, nanometres: map.resolutionNm, memory: map.memory,
      known: map.bounds("known"), filled: boxOf(occupied),
      hasValues: octofix.isSnapshot(bytes), occupied: voxelsIn(occupied.depth),
    };
  }

  // What takes a look at all that is known.
  counts(number) {
    const {map} = this.of(number);
    return {free: voxelsIn(map.leaves("free").depth), nodes: map.leastTree().nodes};
  }

  close(number) {
    this.of(number)?.map?.close();
    this.shown.delete(number);
  }

  // The tree of the occupied blocks, or of all that are known.
  tree(number, kind) {
    const {map, trees} = this.of(number);
    if (kind === OCCUPIED) return trees.occupied;
    if (!trees.known) {
      const leaves = map.leaves("known"), {threshold} = map.odds;
      trees.known = treeOf(leaves, it => leaves.value[it] >= threshold ? OCCUPIED : FREE);
    }
    return trees.known;
  }

  occupiedTree(number) {
    const {nodes, ends} = this.tree(number, OCCUPIED);
    return {nodes: nodes.slice(), ends};
  }

  // One part of the faces of a class, and how many parts there are.
  faces(number, kind, behind, part) {
    const tree = this.tree(number, kind), places = placesOf(tree, PARTS);
    const each = Math.max(Math.ceil(places.length / PARTS), 1);
    const found = findFaces(tree, kind, behind, places.slice(part * each, (part + 1) * each));
    return {parts: Math.ceil(places.length / each) || 1, lists: found.map(trimmed)};
  }

  layers(number, kind, heights) {
    const tree = this.tree(number, kind), none = {numbers: new Uint16Array(0), length: 0};
    return heights.map(it => it === undefined ? none : trimmed(layerOf(tree, kind, it)));
  }

  coarse(number, most) {
    return coarseFaces(this.tree(number, OCCUPIED), most).map(trimmed);
  }

  // What the library says of a voxel.
  ask(number, key) {
    const {map} = this.of(number), centre = map.centers(key);
    const [value] = map.get(centre), [kind] = map.classes(centre);
    return {
      key: Array.from(key), kind, value: value === octofix.UNKNOWN ? undefined : value,
      probability: map.probabilities(centre)[0],
    };
  }

  // The occupied voxel that stops a way first, from place to place in keys with parts; before it
  // the first voxel, where that is free and `isCut`, as a cut shows it.
  seen(number, from, to, isCut) {
    const {map} = this.of(number);
    if (isCut) {
      const first = this.ask(number, from.map(Math.floor));
      if (first.kind === FREE) return first;
    }
    const [start, end] = [from, to].map(it => it.map(n => (n - ORIGIN) * map.resolution));
    const {kinds, keys} = map.cast(start, end, {ignoreUnknown: true});
    return kinds[0] === octofix.CastKind.HIT ? this.ask(number, keys) : null;
  }

  // What the straight way between the middles of two voxels meets first, both left out.
  between(number, from, to) {
    const {map} = this.of(number), [a, b] = [from, to].map(it => Array.from(map.centers(it)));
    const way = b.map((it, n) => it - a[n]), length = Math.hypot(...way);
    const out = map.resolution / 2 / Math.max(...way.map(Math.abs)) + NEAR / length;
    if (!length || out >= 1 - out) return {meets: "nothing"};
    const at = part => a.map((it, n) => it + part * way[n]);
    const {kinds: [kind], keys} = map.cast(at(out), at(1 - out));
    return {meets: BETWEEN[kind], key: kind ? Array.from(keys) : undefined};
  }

  // How many voxels of a box of keys, both corners included, are of each class.
  box(number, low, high) {
    const {map} = this.of(number), {threshold} = map.odds, corners = [low, high];
    const [first, last] = corners.map(it => Array.from(map.centers(it)));
    const {depth, index, value} = map.leaves("known", {low: first, high: last});
    const counts = [0, 0, 0];
    for (let at = 0; at < depth.length; at++) {
      let many = 1;
      for (let axis = 0; axis < 3; axis++) {
        const edge = 1 << 16 - depth[at], start = index[3 * at + axis] * edge;
        many *= Math.min(start + edge - 1, high[axis]) - Math.max(start, low[axis]) + 1;
      }
      counts[value[at] >= threshold ? OCCUPIED : FREE] += many;
    }
    const all = low.reduce((product, it, axis) => product * (high[axis] - it + 1), 1);
    counts[UNKNOWN] = all - counts[FREE] - counts[OCCUPIED];
    return counts;
  }

  // Two maps of one resolution side by side: a table of classes, and what is drawn of them.
  compare(first, second) {
    const edges = [first, second].map(it => this.of(it).map.resolution);
    if (edges[0] !== edges[1])
      throw new Error(`their resolutions are ${edges[0]} m and ${edges[1]} m`);
    const {table, trees} = overlay(this.tree(first, FREE), this.tree(second, FREE));
    const numbers = {};
    for (const [name, occupied] of Object.entries(trees))
      numbers[name] = this.keep({trees: {occupied, known: occupied}});
    return {table, numbers};
  }

  // A file of a map.
  file(number, form) {
    const {map} = this.of(number);
    if (form === "bt") return map.toBt();
    return form === "ply" ? pointsFile(map) : map.toSnapshot();
  }

  // The grid between two keys on z of all that is known.
  grid(number, low, high) {
    const {map} = this.of(number), known = map.bounds("known");
    const corners = [[...known.low.slice(0, 2), low], [...known.high.slice(0, 2), high]];
    return map.grid(...corners.map(it => map.centers(it)));
  }
}

// (a list grows by doubling, and its room stays here)
const trimmed = ({numbers, length}) => ({numbers: numbers.slice(0, 4 * length), length});

// A PLY file of the middles of occupied voxels.
function pointsFile(map) {
  const places = Float32Array.from(map.centers(map.voxels("occupied")));
  const head = ["ply", "format binary_little_endian 1.0", `element vertex ${places.length / 3}`,
    ...["x", "y", "z"].map(it => `property float ${it}`), "end_header", ""].join("\n");
  const file = new Uint8Array(head.length + places.byteLength);
  file.set(new TextEncoder().encode(head));
  file.set(new Uint8Array(places.buffer), head.length);
  return file;
}

const desk = new Desk();
answerCalls(self, Object.fromEntries([
  "load", "open", "counts", "close", "occupiedTree", "faces", "layers", "coarse", "ask", "seen",
  "between", "box", "compare", "file", "grid",
].map(it => [it, desk[it].bind(desk)])));
