// Tests of octofix.mjs that random calls don't make: memory, ends of maps, and the worker. Each is
// a function that throws where something isn't as it should be.

import {
  load, isSnapshot, Blocks, Closed, Event, OutOfMemory, Refused, Rule, Stopped,
} from "../octofix.mjs";
import {start} from "../octofix-worker.mjs";
import {bytesAt} from "./reading.mjs";

function equal(came, wanted) {
  const [one, other] = [came, wanted].map(it => JSON.stringify(it));
  if (one !== other) throw new Error(`${one} came, and ${other} is wanted`);
}

function refuses(kind, call) {
  try {
    call();
  } catch (why) {
    if (why instanceof kind) return why;
    throw why;
  }
  throw new Error(`no ${kind.name} came`);
}

// The numbers of a script's first example: a wall at 2 m, and one at 1 m.
function answersOfAScan({OccMap, ray}) {
  const map = new OccMap(0.1);
  equal(map.scan([[2, 0, 0], [0, 1, 0]], [0.05, 0.05, 0.05]), {hits: 2, frees: 29});
  equal(Array.from(map.get([2.05, 0.05, 0.05, 1, 0.05, 0.05])), [850, -400]);
  equal(Array.from(map.cast([0.05, 0.05, 0.05], [5, 0.05, 0.05]).keys), [32788, 32768, 32768]);
  equal(Array.from(ray(0.1, [0, 0, 0], [0.2, 0, 0])).length, 9);
  equal(map.leaves("occupied") instanceof Blocks, true);
  map.close();
}

function closedMaps({OccMap}) {
  const map = new OccMap(0.1);
  map.close();
  map.close();
  equal(map.closed, true);
  refuses(Closed, () => map.get([0, 0, 0]));
  refuses(Closed, () => map.centers([1, 2, 3]));
  const other = new OccMap(0.1);
  refuses(Closed, () => other.merge(map));
  refuses(Closed, () => other.merge(map, Rule.FIRST, [1, 0, 0]));
  refuses(Closed, () => map.merge(map, Rule.FIRST, [1, 0, 0]));
  refuses(Closed, () => map.keepBox([0, 0, 0], [1, 1, 1]));
  other.close();
}

function wrongWords({OccMap}) {
  const map = new OccMap(0.1);
  equal(refuses(Refused, () => new OccMap(0)).message, "refused 3 BadResolution");
  equal(refuses(Refused, () => new OccMap(0.1, {hit: 0})).fields, {field: "hit"});
  equal(refuses(Refused, () => map.get([1e5, 0, 0])).name, "Outside");
  const said = "points are x, y, z each, and not 2 numbers";
  equal(refuses(RangeError, () => map.get([1, 2])).message, said);
  refuses(RangeError, () => map.voxels("walls"));
  refuses(RangeError, () => map.edit([[0, 0, 0]], [1, 1], 5));
  refuses(TypeError, () => map.edit([[0, 0, 0]], 1, 0.5));
  refuses(TypeError, () => map.merge({}));
  refuses(RangeError, () => map.keepBox([0, 0], [1, 1, 1]));
  refuses(RangeError, () => map.merge(map, Rule.FIRST, [1, 2]));
  refuses(TypeError, () => map.merge(map, Rule.FIRST, [1, 2, 0.5]));
  refuses(TypeError, () => map.merge(map, Rule.FIRST, ["1", 2, 3]));
  map.close();
}

// The known voxels of a map: keys, which are 32768 in the origin, and the value.
function known(map) {
  const keys = map.voxels("known"), values = map.get(map.centers(keys));
  return Array.from(values, (it, row) => [...keys.subarray(3 * row, 3 * row + 3), it]);
}

// Voxel (0, 0, 0) of one map is (3, -5, 1) of another, which knows it from the second merge on.
function movedMaps({OccMap}) {
  const [map, other] = [new OccMap(0.1), new OccMap(0.1)], shift = [3, -5, 1];
  other.edit([0.05, 0.05, 0.05], Event.SET, 500);
  map.merge(other, Rule.FIRST, shift);
  equal(known(map), [[32771, 32763, 32769, 500]]);
  equal(Array.from(map.get([0.35, -0.45, 0.15])), [500]);
  equal(known(other), [[32768, 32768, 32768, 500]]);
  other.edit([0.05, 0.05, 0.05], Event.SET, -300);
  map.merge(other, Rule.GREATEST, Int32Array.from(shift));
  equal(known(map), [[32771, 32763, 32769, 500]]);
  map.merge(other, Rule.LEAST, shift);
  equal(known(map), [[32771, 32763, 32769, -300]]);
  // (a map takes in itself: its voxel is moved by 2 more along x)
  map.merge(map, Rule.FIRST, [2, 0, 0]);
  equal(known(map), [[32771, 32763, 32769, -300], [32773, 32763, 32769, -300]]);
  other.merge(map);
  other.merge(map, Rule.FIRST, [0, 0, 0]);
  equal(known(other).length, 3);
  for (const it of [map, other]) it.close();
}

// Two voxels, of the keys 32768 and 32769 along x: of 65535, the highest key, the second is 32766
// away.
function mapsThatAreMovedOut({OccMap}) {
  const [map, other] = [new OccMap(0.1), new OccMap(0.1)];
  other.edit([[0.05, 0.05, 0.05], [0.15, 0.05, 0.05]], Event.SET, 500);
  map.edit([1, 1, 1], Event.SET, 7);
  const before = map.toSnapshot();
  for (const [shift, point] of [[[0, -32769, 0], 1], [[32767, 0, 0], 2], [[0, 0, 2 ** 40], 1]]) {
    const why = refuses(Refused, () => map.merge(other, Rule.FIRST, shift));
    equal([why.name, why.fields, why.message],
      ["Outside", {point}, `refused 24 Outside point ${point}`]);
    equal(Array.from(map.toSnapshot()), Array.from(before));
  }
  map.clear();
  map.merge(other, Rule.FIRST, [32766, 0, -32768]);
  equal(known(map), [[65534, 32768, 0, 500], [65535, 32768, 0, 500]]);
  refuses(Refused, () => map.merge(map, Rule.FIRST, [1, 0, 0]));
  equal(known(map).length, 2);
  for (const it of [map, other]) it.close();
}

// Of three voxels in a row along x, and one over the middle one, two are kept.
function keptBoxes({OccMap}) {
  const map = new OccMap(0.1);
  map.edit([[0.05, 0.05, 0.05], [0.15, 0.05, 0.05], [0.25, 0.05, 0.05], [0.15, 0.05, 0.15]],
    Event.SET, [1, 2, 3, 4]);
  map.keepBox([0.15, 0.05, 0.05], [0.95, 0.05, 0.05]);
  equal(known(map), [[32769, 32768, 32768, 2], [32770, 32768, 32768, 3]]);
  equal(refuses(Refused, () => map.keepBox([0, 0, 0], [1e5, 0, 0])).name, "Outside");
  equal(refuses(Refused, () => map.keepBox([0, 0, 0.1], [0, 0, 0])).name, "BadBox");
  equal(known(map).length, 2);
  map.keepBox([5, 5, 5], [6, 6, 6]);
  equal(known(map), []);
  map.close();
}

function filesOfBothKinds({OccMap}) {
  const map = new OccMap(0.25, {threshold: 100});
  map.edit([[1, 2, 3]], 1, 500);
  equal([map.toBt(), map.toSnapshot()].map(isSnapshot), [false, true]);
  const again = OccMap.open(map.toSnapshot());
  equal([again.resolution, again.odds.threshold], [0.25, 100]);
  // (a view of a part of a buffer is read as that part)
  const wide = new Uint8Array(map.toBt().length + 20);
  wide.set(map.toBt(), 7);
  equal(OccMap.fromBt(wide.subarray(7, wide.length - 13)).toBt().length, map.toBt().length);
  map.close();
}

// Blocks of the heap don't overlap, are aligned, and come back.
function heap(octofix) {
  const {small: first, take, free, bytes} = octofix.heap, held = [];
  let seed = 7;
  const draw = most => {
    seed = (seed * 1664525 + 1013904223) % 2 ** 32;
    return Math.floor(seed / 2 ** 32 * most);
  };
  for (let step = 0; step < 20000; step++) {
    if (held.length && draw(100) < 49) {
      const [at, size, mark] = held.splice(draw(held.length), 1)[0], found = bytes(at, size);
      if (found.some(it => it !== mark)) throw new Error(`step ${step}: another one wrote there`);
      free(at);
      continue;
    }
    const size = 1 + draw([40, 300, 5000, 60000][draw(4)]), at = take(size), mark = step & 255;
    equal(at % 16, 0);
    if (at < first) throw new Error("a block lies below the heap");
    bytes(at, size).fill(mark);
    held.push([at, size, mark]);
  }
  for (const [at] of held) free(at);
  const before = octofix.heap.memory;
  free(take(Math.floor(before / 2)));
  equal(octofix.heap.memory, before);
}

// A bound of the memory: a call that needs more is refused, and the map goes on.
async function memoryThatRunsOut(_, module) {
  const {OccMap} = await load(module, {memory: 4 << 20}), map = new OccMap(0.01);
  const points = Float64Array.from({length: 30000}, (_, at) => Math.sin(at * at * 12.9898) * 4);
  map.edit([[0, 0, 0]], 1, 5);
  const before = map.toSnapshot();
  refuses(OutOfMemory, () => map.scan(points));
  equal(Array.from(map.toSnapshot()), Array.from(before));
  const why = refuses(OutOfMemory, () => map.edit(points, 1, 5));
  equal(why.index === undefined || why.index > 0, true);
  map.clear();
  map.edit([[0, 0, 0]], 1, 5);
  equal(Array.from(map.get([0, 0, 0])), [5]);
  map.close();
}

// After a trap no call answers. (Here a pointer is passed that no call would pass.)
async function callsAfterATrap(_, module) {
  const {instance} = await WebAssembly.instantiate(await module.slice(0), {});
  const {octofix_host_take: take, octofix_version_text: version} = instance.exports;
  refuses(WebAssembly.RuntimeError, () => version(2n ** 60n));
  refuses(WebAssembly.RuntimeError, () => take(16n));
  equal(new Stopped().name, "Stopped");
}

// What is no longer led to is given back, where the engine can be told to look.
async function mapsThatAreLost(_, module) {
  if (!globalThis.gc) return;
  const {OccMap: Bounded} = await load(module, {memory: 6 << 20});
  const points = Float64Array.from({length: 3000}, (_, at) => Math.sin(at * 12.9898) * 2);
  for (let n = 0; n < 40; n++) {
    new Bounded(0.1).edit(points, 1, 5);                // (all of them would take 40 MB)
    globalThis.gc();
    await new Promise(done => setTimeout(done, 5));
  }
}

function disposal({OccMap}) {
  const map = new OccMap(0.1);
  map[Symbol.dispose ?? Symbol.for("Symbol.dispose")]();
  equal(map.closed, true);
}

async function worker(_, module) {
  const octofix = await start(module);
  const map = await octofix.create(0.1);
  equal(await map.scan([2, 0, 0, 0, 1, 0], [0.05, 0.05, 0.05]), {hits: 2, frees: 29});
  const [values, leaves] = await Promise.all([map.get([2.05, 0.05, 0.05]), map.leaves("occupied")]);
  equal([Array.from(values), leaves.length, leaves instanceof Blocks], [[850], 2, true]);
  equal([await map.resolution, await map.closed], [0.1, false]);
  const again = await octofix.open(await map.toSnapshot());
  await again.merge(map);
  equal(Array.from(await again.toBt()), Array.from(await map.toBt()));
  await again.merge(map, Rule.FIRST, [3, -5, 1]);
  await again.keepBox([2.35, -0.45, 0.15], [2.35, -0.45, 0.15]);
  equal(Array.from(await again.voxels("known")), [32791, 32763, 32769]);
  const left = await again.merge(map, Rule.FIRST, [32760, 0, 0]).catch(it => it);
  equal([left instanceof Refused, left.message], [true, "refused 24 Outside point 2"]);
  const why = await map.get([1e5, 0, 0]).then(() => undefined, it => it);
  equal([why instanceof Refused, why.message], [true, "refused 24 Outside index 0"]);
  await map.close();
  equal([await map.closed, (await map.get([0, 0, 0]).catch(it => it)).name], [true, "Closed"]);
  await octofix.end();
  equal((await again.get([0, 0, 0]).catch(it => it)).message, "the worker has ended");
}

const TESTS = {
  answersOfAScan, closedMaps, wrongWords, movedMaps, mapsThatAreMovedOut, keptBoxes,
  filesOfBothKinds, heap, memoryThatRunsOut, callsAfterATrap, mapsThatAreLost, disposal, worker,
};

// The faults of all tests, by their names, and how many there are.
export async function run(folder) {
  const module = await bytesAt(folder, "octofix.wasm"), faults = {};
  for (const [name, test] of Object.entries(TESTS))
    try {
      const octofix = await load(module.slice(0));
      await test(Object.assign(octofix, {heap: await heapOf(module)}), module.slice(0));
    } catch (why) {
      faults[name] = String(why.stack ?? why);
    }
  return {faults, count: Object.keys(TESTS).length};
}

// The heap of a module of its own.
async function heapOf(module) {
  const {instance: {exports}} = await WebAssembly.instantiate(module.slice(0), {});
  const bytes = (at, size) => new Uint8Array(exports.memory.buffer, at, size);
  return {
    bytes, small: Number(exports.__heap_base.value),
    take: size => Number(exports.octofix_host_take(BigInt(size))),
    free: at => exports.octofix_host_free(BigInt(at)),
    get memory() { return exports.memory.buffer.byteLength; },
  };
}
