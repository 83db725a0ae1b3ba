// Does the calls of calls.py by the module, and tells those that answer something else.

import {load} from "../octofix.mjs";
import {bytesAt, jsonAt} from "./reading.mjs";

const hex = bytes => Array.from(bytes, it => it.toString(16).padStart(2, "0")).join("");

async function sumOf(...arrays) {
  const all = await new Blob(arrays).arrayBuffer();
  return hex(new Uint8Array(await crypto.subtle.digest("SHA-256", all)));
}

const settingsOf = ({max_groups: maxGroups, ...rest}) => ({...rest, maxGroups});
const scanOf = ({range, ...rest}) => ({...rest, range: range ?? undefined});
const boxOf = box => box && [box.low, box.high];
const blocksOf = it =>
  sumOf(it.depth, it.index, it.value, it.lows(), it.centers(), it.sizes());

class Doer {
  constructor({OccMap, ray}, numbers) {
    Object.assign(this, {OccMap, makeRay: ray, numbers});
  }

  of([start, length]) {
    return this.numbers.subarray(start, start + length);
  }

  open(resolution, settings) {
    this.map?.close();
    this.map = new this.OccMap(resolution, settingsOf(settings));
  }

  track() { this.map.track(); }
  refresh() { this.map.refresh(); }
  odds() { return Object.values(this.map.odds); }
  memory() { return this.map.memory; }
  counts() { return Object.values(this.map.counts()); }
  leastTree() { return Object.values(this.map.leastTree()); }
  window() { return boxOf(this.map.window); }
  bounds(kind) { return boxOf(this.map.bounds(kind)); }
  toBt() { return sumOf(this.map.toBt()); }
  toSnapshot() { return sumOf(this.map.toSnapshot()); }
  leaves(kind) { return blocksOf(this.map.leaves(kind)); }
  voxels(kind) { return sumOf(this.map.voxels(kind)); }
  keepBox(low, high) { this.map.keepBox(this.of(low), this.of(high)); }
  limit(low, high) { this.map.limit(this.of(low), this.of(high)); }

  scan(points, origin, quaternion, how) {
    const options = {...scanOf(how), quaternion: this.of(quaternion)};
    return Object.values(this.map.scan(this.of(points), this.of(origin), options));
  }

  scanFrom(origin, points, how) {
    return Object.values(this.map.scanFrom(this.of(origin), this.of(points), scanOf(how)));
  }

  edit(points, event, number, lazy) {
    this.map.edit(this.of(points), event, number, {lazy});
  }

  editBox(low, high, event, number) {
    this.map.editBox(this.of(low), this.of(high), event, number);
  }

  // (numbers that are those of 32 bits are passed as such, too)
  get(points, depth) {
    const short = Float32Array.from(this.of(points)), values = this.of(points);
    return sumOf(this.map.get(values.every((it, n) => it === short[n]) ? short : values, depth));
  }

  classes(points, depth) { return sumOf(this.map.classes(this.of(points), depth)); }

  cast(starts, ends, ignoreUnknown) {
    const {kinds, keys} = this.map.cast(this.of(starts), this.of(ends), {ignoreUnknown});
    return sumOf(kinds, keys);
  }

  ray(resolution, start, end) {
    return sumOf(this.makeRay(resolution, this.of(start), this.of(end)));
  }

  leavesIn(kind, low, high) {
    return blocksOf(this.map.leaves(kind, {low: this.of(low), high: this.of(high)}));
  }

  list(low, high, depth) { return blocksOf(this.map.list(this.of(low), this.of(high), depth)); }

  async grid(low, high) {
    const {cells, rows, columns} = this.map.grid(this.of(low), this.of(high));
    return [rows, columns, await sumOf(cells)];
  }

  changes() {
    const {keys, kinds} = this.map.changes();
    return sumOf(keys, kinds);
  }

  reopen(how) {
    const again = this.OccMap.open(this.map[how]());
    const found = how === "toBt" ? again.toSnapshot() : again.toBt();
    again.close();
    return sumOf(found);
  }

  cut(length) { this.map.loadBt(this.map.toBt().subarray(0, length)); }

  merge(resolution, settings, points, rule, shift) {
    const other = new this.OccMap(resolution, settingsOf(settings));
    try {
      other.scanFrom([0, 0, 0], this.of(points));
      this.map.merge(other, rule, shift);
      return sumOf(this.map.toSnapshot());
    } finally {
      other.close();
    }
  }
}

async function answerOf(doer, name, passed) {
  try {
    return await doer[name](...passed) ?? null;
  } catch (why) {
    if (why.name === "BadPoints") return {bad: [why.what, why.index]};
    if (why.code) return {refused: why.message};
    throw why;
  }
}

// What came of the calls of a folder: how many there are, how many were refused, and how many
// answer something else, with the first of these.
export async function compare(folder) {
  const library = await load(await bytesAt(folder, "octofix.wasm"));
  const numbers = new Float64Array(await bytesAt(folder, "numbers.bin"));
  const calls = await jsonAt(folder, "calls.json"), doer = new Doer(library, numbers), differ = [];
  let refused = 0;
  for (const [name, passed, wanted] of calls) {
    const came = await answerOf(doer, name, passed);
    refused += came?.refused ? 1 : 0;
    if (JSON.stringify(came) !== JSON.stringify(wanted)) differ.push([name, passed, came, wanted]);
  }
  doer.map.close();
  return {calls: calls.length, refused, differ: differ.length, first: differ.slice(0, 5)};
}
