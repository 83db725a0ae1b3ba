// octofix: the map that a robot builds from range scans, in a browser or in Node, by the library's
// WebAssembly module.
//
//     import {load} from "octofix";
//     const {OccMap} = await load();
//     const map = new OccMap(0.1);
//     map.scan([2, 0, 0, 0, 1, 0], [0.05, 0.05, 0.05]);
//     map.get([2.05, 0.05, 0.05]);                        // Int32Array [850]
//
// Lengths are metres, log-odds whole thousandths, points x, y, z one after another. Names are those
// of the Python package as JavaScript has them, and answers are the same (octofix.d.ts).

import {
  Blocks, CODES, Closed, DEPTH, Library, NANOMETRES, ODDS_FIELDS, ORIGIN, OutOfMemory, PLACES,
  POINT, Refused, big, bytesOf, checkWhole, edgeOf, integer32, lengthOf, matrixOf, numbersOf,
  quaternionOf, stepsOf,
} from "./octofix-library.mjs";

export {
  BadPoints, Blocks, Closed, OutOfMemory, Refused, Stopped,
} from "./octofix-library.mjs";

export const UNKNOWN = -(2 ** 31);
export const Event = Object.freeze({ADD: 0, SET: 1, FORGET: 2, LIKELY: 3});
export const Rule = Object.freeze({FIRST: 0, GREATEST: 1, LEAST: 2});
export const VoxelClass = Object.freeze({UNKNOWN: 0, FREE: 1, OCCUPIED: 2});
export const CastKind = Object.freeze({CLEAR: 0, HIT: 1, UNKNOWN: 2});
export const ChangeKind = Object.freeze({NEW: 0, LOST: 1, OCCUPIED: 2, FREED: 3});

const MOST_BYTES = 2 ** 30, MOST_NUMBER = 1e6, MOST_GROUPS = 2 ** 26, MOST_CELLS = 2 ** 27;
const GUESSED_EDGE = 0.1;
const SNAPSHOT = "OCTSNAP";
const SOUGHT = Object.freeze({known: 0, occupied: 1, free: 2});
// Bytes of structs of octofix.h.
const EDIT = 32, SEGMENT = 48, BLOCK = 12, ANSWER = 8, STOP = 8, CHANGE = 8, KEY = 6, HANDLE = 16;

// Whether bytes begin as a snapshot.
export const isSnapshot = bytes =>
  String.fromCharCode(...bytesOf(bytes).subarray(0, SNAPSHOT.length)) === SNAPSHOT;

function soughtOf(kind) {
  if (!Object.hasOwn(SOUGHT, kind))
    throw new RangeError(`kind is "known", "occupied" or "free", not ${kind}`);
  return SOUGHT[kind];
}

// The depth, and for each that there isn't the same one.
const depthOf = depth => depth >= 0 && depth <= DEPTH ? Math.trunc(depth) : DEPTH + 1;

const isList = it => typeof it !== "number";
const rowOf = (values, row) => isList(values) ? values[row] : values;

function boxAt(library, place) {
  const six = Array.from(new Uint16Array(library.memory.buffer, library.small + place, 6));
  return {low: six.slice(0, 3), high: six.slice(3)};
}

// Keys, flat, and the fourth number beside each.
function keysAndKinds(bytes, kinds) {
  const rows = new Uint16Array(bytes), keys = new Uint16Array(rows.length / 4 * 3);
  for (let row = 0; row < kinds.length; row++) {
    keys[3 * row] = rows[4 * row];
    keys[3 * row + 1] = rows[4 * row + 1];
    keys[3 * row + 2] = rows[4 * row + 2];
    kinds[row] = rows[4 * row + 3];
  }
  return {keys, kinds};
}

// The voxels of a block of 2^level voxels a side, from its lowest corner, in Morton order, flat.
function mortonBlock(level) {
  const keys = new Uint16Array(3 * 8 ** level);
  for (let at = 0; at < keys.length; at++)
    for (let bit = 0, code = Math.floor(at / 3); bit < level; bit++)
      keys[at] |= (Math.floor(code / 8 ** bit) >> at % 3 & 1) << bit;
  return keys;
}

// The keys of the voxels of blocks, which come in Morton order, as these do.
function voxelsOf({depth, index}, count) {
  const keys = new Uint16Array(3 * count), blocks = [];
  for (let block = 0, to = 0; block < depth.length; block++) {
    const level = DEPTH - depth[block], inside = blocks[level] ??= mortonBlock(level);
    const x = index[3 * block] << level, y = index[3 * block + 1] << level;
    const z = index[3 * block + 2] << level;
    for (let at = 0; at < inside.length; at += 3, to += 3) {
      keys[to] = x + inside[at];
      keys[to + 1] = y + inside[at + 1];
      keys[to + 2] = z + inside[at + 2];
    }
  }
  return keys;
}

// -- the map

// A map of a library: `load` makes a class of it for each module.
class Occupancy {
  #library;
  #handle = 0;
  #edge;

  constructor(resolution, settings = {}) {
    const {hit = 850, miss = -400, min = -2000, max = 3500, threshold = 0} = settings;
    const {maxGroups = 2 ** 24, maxCells = 2 ** 26} = settings;
    const library = this.#library = new.target.library;
    const odds = {hit, miss, min, max, threshold};
    const fives = Object.keys(odds).map(it => integer32(odds[it], it));
    library.whole(maxGroups, "max_groups", 16, MOST_GROUPS);
    library.whole(maxCells, "max_cells", 1, MOST_CELLS);
    this.#edge = edgeOf(resolution);
    const handle = library.take(HANDLE), first = library.small + PLACES.FIRST, {view} = library;
    new Uint8Array(library.memory.buffer, handle, HANDLE).fill(0);
    fives.forEach((it, n) => view.setInt32(first + 4 * n, it, true));
    [maxGroups, maxCells].forEach((it, n) => view.setBigUint64(first + 24 + 8 * n, big(it), true));
    try {
      library.detailed("open", big(handle), big(this.#edge), big(first), big(first + 24));
    } catch (why) {
      library.free(handle);
      throw why;
    }
    this.#handle = handle;
    new.target.opened.register(this, handle, this);
  }

  // -- opening and closing

  static fromBt(bytes, settings = {}) {
    return Occupancy.#from(this, bytes, settings, "load");
  }

  static fromSnapshot(bytes, settings = {}) {
    return Occupancy.#from(this, bytes, settings, "restore");
  }

  // A map of a file's bytes, whichever of both it is.
  static open(bytes, settings = {}) {
    return isSnapshot(bytes) ? this.fromSnapshot(bytes, settings) : this.fromBt(bytes, settings);
  }

  // A map of a file; where the file is of another resolution, one of that.
  static #from(kind, bytes, settings, name) {
    try {
      return Occupancy.#filled(new kind(GUESSED_EDGE, settings), name, bytes);
    } catch (why) {
      if (!(why instanceof Refused) || why.code !== CODES.OTHER_RESOLUTION) throw why;
      return Occupancy.#filled(new kind(why.fields.file / NANOMETRES, settings), name, bytes);
    }
  }

  static #filled(made, name, bytes) {
    try {
      made.#take(name, bytes);
      return made;
    } catch (why) {
      made.close();
      throw why;
    }
  }

  close() {
    if (this.closed) return;
    this.constructor.opened.unregister(this);
    const handle = this.#handle;
    this.#handle = 0;
    if (this.#library.fault) return;
    this.#library.run("close", big(handle));
    this.#library.free(handle);
  }

  [Symbol.dispose ?? Symbol.for("Symbol.dispose")]() {
    this.close();
  }

  get closed() {
    return !this.#handle;
  }

  get #at() {
    if (this.closed) throw new Closed();
    return big(this.#handle);
  }

  // -- what the map is

  get resolution() {
    return this.#edge / NANOMETRES;
  }

  get resolutionNm() {
    return this.#edge;
  }

  get #settings() {
    this.#library.call("settings_of", this.#at, big(this.#library.small + PLACES.RESULT));
    return new DataView(this.#library.memory.buffer, this.#library.small + PLACES.RESULT, 56);
  }

  get odds() {
    const view = this.#settings;
    return Object.fromEntries(ODDS_FIELDS.map((it, n) => [it, view.getInt32(8 + 4 * n, true)]));
  }

  get limits() {
    const view = this.#settings;
    const [maxGroups, maxCells] = [32, 40].map(it => Number(view.getBigUint64(it, true)));
    return {maxGroups, maxCells};
  }

  get stale() {
    return this.#settings.getUint8(48) === 1;
  }

  get tracked() {
    return this.#settings.getUint8(49) === 1;
  }

  get memory() {
    this.#library.call("memory", this.#at, big(this.#library.small + PLACES.RESULT));
    return this.#library.number(PLACES.RESULT);
  }

  get window() {
    return this.#box("window");
  }

  // -- edits

  scan(points, origin = [0, 0, 0], options = {}) {
    const quaternion = quaternionOf(options.quaternion ?? [1, 0, 0, 0]);
    const w = quaternion.some(it => it) ? 1n : 0n;
    return this.#scan("scan", points, origin, options, w, matrixOf(quaternion));
  }

  scanFrom(origin, points, options = {}) {
    return this.#scan("scan_in_map", points, origin, options, 1n);
  }

  #scan(name, points, origin, options, w, turn) {
    const library = this.#library, result = library.small + PLACES.RESULT;
    return library.places(points, "points", (places, count) => {
      const sensor = library.point(origin, "origin", PLACES.FIRST);
      library.view.setBigUint64(Number(sensor) + POINT, w, true);
      const how = this.#writeScanOptions(options);
      library.detailed(name, this.#at, sensor, big(places), big(count), how, big(result));
      const [hits, frees] = [0, 8].map(it => library.number(PLACES.RESULT + it));
      return {hits, frees};
    }, turn);
  }

  #writeScanOptions({range, hit, miss, lazy = false}) {
    const library = this.#library, place = library.small + PLACES.OPTIONS;
    const reach = range === undefined ? -1 : lengthOf(range, "range");
    if ((hit === undefined) !== (miss === undefined))
      throw new RangeError("hit and miss stand both or not at all");
    if (hit === 0 && miss === 0) throw library.refused(CODES.BAD_MODEL, {field: "hit"});
    const {view} = library;
    view.setBigInt64(place, big(reach), true);
    view.setInt32(place + 8, integer32(hit ?? 0, "hit"), true);
    view.setInt32(place + 12, integer32(miss ?? 0, "miss"), true);
    view.setUint8(place + 16, lazy ? 1 : 0);
    return big(place);
  }

  edit(points, event, number = 0, {lazy = false} = {}) {
    const library = this.#library, numbers = numbersOf(points, "points");
    const count = numbers.length / 3;
    for (const [values, what] of [[event, "event"], [number, "number"]])
      if (isList(values) && values.length !== count)
        throw new RangeError(`${what} has ${values.length} numbers, and there are ${count} points`);
    library.with(EDIT * count, edits => {
      library.write(numbers, "points", edits, {stride: EDIT / 8});
      this.#writeEvents(edits, count, event, number);
      const done = PLACES.COUNT, passed = [edits, count].map(big);
      const details = [done, PLACES.DETAILS].map(it => big(library.small + it));
      const code = library.run("edit_all", this.#at, ...passed, lazy ? 1 : 0, ...details);
      if (code) this.#failEdit(code, library.number(done));
    });
  }

  #writeEvents(edits, count, event, number) {
    const library = this.#library, isOne = !isList(event) && !isList(number);
    const check = (value, what, low, high, isOfAll, row) => {
      if (checkWhole(value, what) >= low && value <= high) return value;
      const fields = isOfAll ? {field: what} : {field: what, index: row};
      throw library.refused(CODES.BAD_ARGUMENT, fields);
    };
    const rows = new Int32Array(library.memory.buffer, edits, EDIT / 4 * count);
    for (let row = 0; row < count || isOne && !row; row++)
      check(rowOf(event, row), "event", Event.ADD, Event.LIKELY, !isList(event), row);
    for (let row = 0; row < count || isOne && !row; row++) {
      const one = rowOf(event, row), isNumbered = one === Event.ADD || one === Event.SET;
      const found = isNumbered ? rowOf(number, row) : 0 * checkWhole(rowOf(number, row), "number");
      check(found, "number", -MOST_NUMBER, MOST_NUMBER, isOne, row);
      if (row < count) rows.set([one, found], EDIT / 4 * row + 6);
    }
  }

  #failEdit(code, index) {
    const library = this.#library;
    if (code === CODES.MEMORY) throw new OutOfMemory(index);
    if (code === CODES.CLOSED) throw new Closed();
    throw library.refusedRow(code, index, library.refusal(code, true).fields);
  }

  editBox(low, high, event, number = 0) {
    const library = this.#library, corners = library.corners(low, high);
    library.whole(event, "event", Event.ADD, Event.LIKELY);
    const isNumbered = event === Event.ADD || event === Event.SET;
    const found = isNumbered ? number : 0 * checkWhole(number, "number");
    library.whole(found, "number", -MOST_NUMBER, MOST_NUMBER);
    library.detailed("edit_box", this.#at, ...corners, event, found);
  }

  keepBox(low, high) {
    this.#library.detailed("keep_box", this.#at, ...this.#library.corners(low, high));
  }

  limit(low, high) {
    this.#library.detailed("limit", this.#at, ...this.#library.corners(low, high));
  }

  noLimit() {
    this.#library.call("no_limit", this.#at);
  }

  refresh() {
    this.#library.call("refresh", this.#at);
  }

  prune() {
    this.#library.call("prune", this.#at);
  }

  clear() {
    this.#library.call("clear", this.#at);
  }

  maxLikelihood() {
    this.#library.call("max_likelihood", this.#at);
  }

  merge(other, rule = Rule.FIRST, shift = [0, 0, 0]) {
    if (!(other instanceof Occupancy) || other.#library !== this.#library)
      throw new TypeError("another map of the same module is merged");
    this.#library.whole(rule, "rule", Rule.FIRST, Rule.LEAST);
    const steps = stepsOf(shift), isMoved = steps.some(it => it);
    if (isMoved && other === this) this.#mergeItself(rule, steps);
    else if (isMoved) this.#mergeMoved(other.#at, rule, steps);
    else if (other === this) this.prune();
    else this.#library.detailed("merge", this.#at, other.#at, rule);
  }

  #mergeMoved(other, rule, steps) {
    const library = this.#library, details = big(library.small + PLACES.DETAILS);
    const code = library.run("merge_shifted", this.#at, other, rule, details, ...steps);
    library.checked(code, true);
  }

  // (a call takes no map twice)
  #mergeItself(rule, steps) {
    const library = this.#library;
    library.with(HANDLE, copy => {
      new Uint8Array(library.memory.buffer, copy, HANDLE).fill(0);
      library.call("copy", this.#at, big(copy));
      try {
        this.#mergeMoved(big(copy), rule, steps);
      } finally {
        library.run("close", big(copy));
      }
    });
  }

  counts() {
    const [groups, nodes] = this.#numbers("counts_of", 2);
    return {groups, nodes};
  }

  // -- questions

  leastTree() {
    const [groups, nodes, leaves] = this.#numbers("least_tree_of", 3);
    return {groups, nodes, leaves};
  }

  #numbers(name, many) {
    this.#library.call(name, this.#at, big(this.#library.small + PLACES.RESULT));
    return Array.from({length: many}, (_, n) => this.#library.number(PLACES.RESULT + 8 * n));
  }

  get(points, depth = DEPTH) {
    const library = this.#library;
    return library.places(points, "points", (places, count) =>
      library.with(ANSWER * count, answers => {
        const into = [answers, count].map(big), asked = [places, count].map(big);
        library.call("get_all", this.#at, ...asked, depthOf(depth), ...into);
        const rows = new Int32Array(library.memory.buffer, answers, 2 * count);
        return Int32Array.from({length: count}, (_, row) => {
          const code = rows[2 * row + 1];
          if (code && code !== CODES.UNKNOWN) throw library.refusedRow(code, row);
          return code ? UNKNOWN : rows[2 * row];
        });
      }));
  }

  classes(points, depth = DEPTH) {
    const values = this.get(points, depth), {threshold} = this.odds;
    const {UNKNOWN: unknown, FREE, OCCUPIED} = VoxelClass;
    return Int8Array.from(values, it =>
      it === UNKNOWN ? unknown : it >= threshold ? OCCUPIED : FREE);
  }

  probabilities(points, depth = DEPTH) {
    return Float64Array.from(this.get(points, depth), it =>
      it === UNKNOWN ? NaN : 1 / (1 + Math.exp(-it / 1000)));
  }

  cast(origins, ends, {ignoreUnknown = false} = {}) {
    const library = this.#library;
    const first = numbersOf(origins, "origins"), last = numbersOf(ends, "ends");
    const count = first.length === 3 ? last.length / 3 : first.length / 3;
    if (last.length !== 3 && last.length !== 3 * count)
      throw new RangeError(`there are ${first.length / 3} origins, and ${last.length / 3} ends`);
    return library.with(SEGMENT * count, ways => {
      library.write(first, "origins", ways, {stride: 6, count});
      library.write(last, "ends", ways + POINT, {stride: 6, count});
      return library.with(STOP * count, stops => {
        const into = [stops, count].map(big), asked = [ways, count].map(big);
        library.call("cast_all", this.#at, ...asked, ignoreUnknown ? 1 : 0, ...into);
        return this.#castsOf(library.memory.buffer.slice(stops, stops + STOP * count));
      });
    });
  }

  #castsOf(bytes) {
    const {keys, kinds: codes} = keysAndKinds(bytes, new Uint16Array(bytes.byteLength / STOP));
    const kinds = Int8Array.from(codes, (code, row) => {
      if (code === CODES.DONE) return CastKind.HIT;
      if (code === CODES.CLEAR) return CastKind.CLEAR;
      if (code === CODES.UNKNOWN) return CastKind.UNKNOWN;
      throw this.#library.refusedRow(code, row);
    });
    return {kinds, keys};
  }

  list(low, high, depth = DEPTH) {
    const library = this.#library, corners = library.corners(low, high);
    return this.#blocks((...rows) =>
      library.detailed("list", this.#at, ...corners, depthOf(depth), ...rows));
  }

  leaves(kind = "known", {low, high} = {}) {
    const library = this.#library, sought = soughtOf(kind);
    if ((low === undefined) !== (high === undefined))
      throw new RangeError("low and high stand both or not at all");
    if (low === undefined)
      return this.#blocks((...rows) => library.call("leaves_of", this.#at, sought, ...rows));
    const corners = library.corners(low, high);
    return this.#blocks((...rows) =>
      library.detailed("leaves_of_in", this.#at, sought, ...corners, ...rows));
  }

  #blocks(call) {
    const bytes = this.#library.list(BLOCK, call), count = bytes.byteLength / BLOCK;
    const words = new Uint16Array(bytes), longs = new Int32Array(bytes);
    const depth = new Uint8Array(count), index = new Uint16Array(3 * count);
    const value = new Int32Array(count);
    for (let row = 0; row < count; row++) {
      depth[row] = words[6 * row];
      index[3 * row] = words[6 * row + 1];
      index[3 * row + 1] = words[6 * row + 2];
      index[3 * row + 2] = words[6 * row + 3];
      value[row] = longs[3 * row + 2];
    }
    return new Blocks(depth, index, value, this.#edge);
  }

  voxels(kind = "occupied", limit = 2 ** 26) {
    const blocks = this.leaves(kind);
    const count = blocks.depth.reduce((sum, it) => sum + 8 ** (DEPTH - it), 0);
    if (count > limit)
      throw new RangeError(`there are ${count} such voxels, and limit is ${limit}`);
    return voxelsOf(blocks, count);
  }

  centers(keys) {
    void this.#at;
    return Float64Array.from(keys, it =>
      (2 * (it - ORIGIN) + 1) * this.#edge / (2 * NANOMETRES));
  }

  bounds(kind = "known") {
    return this.#box("bounds", soughtOf(kind));
  }

  // The lowest and the highest corner of `bounds` in metres.
  extent(kind = "known") {
    const box = this.bounds(kind);
    if (!box) return undefined;
    const metres = (keys, more) =>
      Float64Array.from(keys, it => (it + more - ORIGIN) * this.#edge / NANOMETRES);
    return {low: metres(box.low, 0), high: metres(box.high, 1)};
  }

  #box(name, ...passed) {
    const library = this.#library;
    const code = library.call(name, this.#at, ...passed, big(library.small + PLACES.RESULT));
    return code === CODES.NONE ? undefined : boxAt(library, PLACES.RESULT);
  }

  grid(low, high) {
    const library = this.#library, corners = library.corners(low, high);
    const [first, last] = corners.map(it => Number(library.view.getBigInt64(Number(it), true)));
    const cells = new Int8Array(library.list(1, (...rows) =>
      library.detailed("grid", this.#at, ...corners, ...rows)));
    const columns = Math.floor(last / this.#edge) - Math.floor(first / this.#edge) + 1;
    return {cells, columns, rows: cells.length / columns};
  }

  // -- changes since a mark

  track() {
    this.#library.call("track", this.#at);
  }

  untrack() {
    this.#library.call("untrack", this.#at);
  }

  changes() {
    const library = this.#library;
    const bytes = library.list(CHANGE, (...rows) => library.call("changes", this.#at, ...rows));
    return keysAndKinds(bytes, new Uint8Array(bytes.byteLength / CHANGE));
  }

  // -- files, as bytes

  toBt() {
    return this.#file("save");
  }

  toSnapshot() {
    return this.#file("snapshot");
  }

  loadBt(bytes) {
    this.#take("load", bytes);
  }

  loadSnapshot(bytes) {
    this.#take("restore", bytes);
  }

  #file(name) {
    const library = this.#library;
    return new Uint8Array(library.list(1, (...rows) => library.call(name, this.#at, ...rows)));
  }

  #take(name, data) {
    const library = this.#library, bytes = bytesOf(data);
    if (bytes.length > MOST_BYTES) throw library.refused(CODES.FILE_TOO_LARGE);
    library.with(bytes.length, buffer => {
      new Uint8Array(library.memory.buffer, buffer, bytes.length).set(bytes);
      library.detailed(name, this.#at, big(buffer), big(bytes.length));
    });
  }
}

// The keys of the voxels of an edge that the way from one point to another meets, in order, flat.
function rayOf(library, resolution, origin, end) {
  const first = library.point(origin, "origin", PLACES.FIRST);
  const last = library.point(end, "end", PLACES.SECOND), edge = big(edgeOf(resolution));
  return new Uint16Array(library.list(KEY, (...rows) =>
    library.detailed("ray", edge, first, last, ...rows)));
}

async function moduleOf(source) {
  if (source instanceof WebAssembly.Module) return source;
  if (typeof source !== "string" && !(source instanceof URL)) return WebAssembly.compile(source);
  const url = new URL(source, import.meta.url);
  if (url.protocol !== "file:") return WebAssembly.compile(await (await fetch(url)).arrayBuffer());
  const {readFile} = await import("node:fs/promises");
  return WebAssembly.compile(await readFile(url));
}

// Loads the library. `source` is its module, or where that is; `memory` bounds it, in bytes.
export async function load(source = new URL("octofix.wasm", import.meta.url), {memory} = {}) {
  const library = new Library(await WebAssembly.instantiate(await moduleOf(source), {}));
  if (memory !== undefined) library.run("host_limit", big(Math.floor(memory)));
  const opened = new FinalizationRegistry(handle => {
    if (library.fault) return;
    library.run("close", big(handle));
    library.free(handle);
  });
  class OccMap extends Occupancy {
    static library = library;
    static opened = opened;
  }
  return {
    OccMap,
    ray: (...passed) => rayOf(library, ...passed),
    version: library.text("version_text"),
    get memory() {
      return library.memory.buffer.byteLength;
    },
  };
}
