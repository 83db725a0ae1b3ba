// The library in a worker, so that a page stays alive during large scans: the maps of octofix.mjs
// with the same calls, each of which is a promise.
//
//     import {start} from "octofix/worker";
//     const octofix = await start();
//     const map = await octofix.create(0.1);
//     await map.scan(points, [0, 0, 1.2]);
//     (await map.get([1, 2, 0.5]))[0];
//     octofix.end();

import * as octofix from "./octofix.mjs";
import {Caller, answerCalls} from "./octofix-calls.mjs";

const NAME = "octofix";                 // of the worker
// What a map answers that is no call.
const PROPERTIES = [
  "resolution", "resolutionNm", "odds", "limits", "stale", "tracked", "memory", "window", "closed",
];
const CALLS = [
  "scan", "scanFrom", "edit", "editBox", "keepBox", "limit", "noLimit", "refresh", "prune", "clear",
  "maxLikelihood", "merge", "counts", "leastTree", "get", "classes", "probabilities", "cast",
  "list", "leaves", "voxels", "centers", "bounds", "extent", "grid", "track", "untrack", "changes",
  "toBt", "toSnapshot", "loadBt", "loadSnapshot",
];

// -- the worker's side

class Desk {
  constructor() {
    Object.assign(this, {maps: new Map(), count: 0});
  }

  async load(source, options) {
    this.octofix = await octofix.load(source ?? undefined, options);
    return this.octofix.version;
  }

  keep(map) {
    this.maps.set(++this.count, map);
    return this.count;
  }

  create(...passed) {
    return this.keep(new this.octofix.OccMap(...passed));
  }

  make(how, ...passed) {
    return this.keep(this.octofix.OccMap[how](...passed));
  }

  mapOf(number) {
    if (!this.maps.has(number)) throw new octofix.Closed();
    return this.maps.get(number);
  }

  property(number, name) {
    return name === "closed" ? !this.maps.has(number) : this.mapOf(number)[name];
  }

  close(number) {
    this.maps.get(number)?.close();
    this.maps.delete(number);
  }

  map(number, name, ...passed) {
    const given = name === "merge" ? [this.mapOf(passed[0]), ...passed.slice(1)] : passed;
    const answer = this.mapOf(number)[name](...given);
    return answer instanceof octofix.Blocks ? {...answer, isBlocks: true} : answer;
  }

  ray(...passed) {
    return this.octofix.ray(...passed);
  }

  memory() {
    return this.octofix.memory;
  }
}

// -- the page's side

// A map in the worker. Its calls are those of OccMap, as promises.
class RemoteMap {
  #caller;
  #number;

  constructor(caller, number) {
    this.#caller = caller;
    this.#number = number;
  }

  // What OccMap has as a property.
  property(name) {
    return this.#caller.call("property", this.#number, name);
  }

  async call(name, ...passed) {
    const own = passed.map(it => it instanceof RemoteMap ? it.#number : it);
    const answer = await this.#caller.call("map", this.#number, name, ...own);
    if (!answer?.isBlocks) return answer;
    return new octofix.Blocks(answer.depth, answer.index, answer.value, answer.resolutionNm);
  }

  close() {
    return this.#caller.call("close", this.#number);
  }

  [Symbol.asyncDispose ?? Symbol.for("Symbol.asyncDispose")]() {
    return this.close();
  }
}

for (const name of CALLS)
  RemoteMap.prototype[name] = function (...passed) {
    return this.call(name, ...passed);
  };
for (const name of PROPERTIES)
  Object.defineProperty(RemoteMap.prototype, name, {
    get() {
      return this.property(name);
    },
  });

async function workerOf() {
  if (globalThis.Worker)
    return new Worker(new URL("octofix-worker.mjs", import.meta.url), {type: "module", name: NAME});
  const {Worker: NodeWorker} = await import("node:worker_threads");
  return new NodeWorker(new URL(import.meta.url), {workerData: NAME});
}

// Starts a worker that has the library. `source` and `options` are those of `load`.
export async function start(source, options) {
  const worker = await workerOf(), caller = new Caller(worker);
  const failed = why => caller.end(new Error(`the worker failed: ${why?.message ?? why}`));
  if (worker.on) worker.on("error", failed);
  else worker.addEventListener("error", failed);
  const version = await caller.call("load", source, options);
  const made = async (...passed) => new RemoteMap(caller, await caller.call(...passed));
  return {
    version,
    create: (...passed) => made("create", ...passed),
    fromBt: (...passed) => made("make", "fromBt", ...passed),
    fromSnapshot: (...passed) => made("make", "fromSnapshot", ...passed),
    open: (...passed) => made("make", "open", ...passed),
    ray: (...passed) => caller.call("ray", ...passed),
    memory: () => caller.call("memory"),
    end() {
      caller.end(new Error("the worker has ended"));
      return worker.terminate();
    },
  };
}

// (this file is the worker, too)
async function serve() {
  const isBrowsers = globalThis.WorkerGlobalScope && globalThis.name === NAME;
  if (isBrowsers) return answerCalls(globalThis, callsOf(new Desk()));
  if (!globalThis.process?.versions?.node) return undefined;
  const {isMainThread, parentPort, workerData} = await import("node:worker_threads");
  if (!isMainThread && workerData === NAME) answerCalls(parentPort, callsOf(new Desk()));
  return undefined;
}

function callsOf(desk) {
  const names = ["load", "create", "make", "property", "map", "close", "ray", "memory"];
  return Object.fromEntries(names.map(it => [it, desk[it].bind(desk)]));
}

await serve();
