/** octofix: the map that a robot builds from range scans, in a browser or in Node. Lengths are
 * metres, log-odds whole thousandths, and what isn't said here is as in the Python package. */

declare global {
  interface SymbolConstructor {
    readonly dispose: unique symbol;
    readonly asyncDispose: unique symbol;
  }
}

/** The value where nothing is known. */
export const UNKNOWN: -2147483648;
/** What an edit does: adds the number, makes it the number, unknown, or the largest or smallest. */
export const Event: {readonly ADD: 0; readonly SET: 1; readonly FORGET: 2; readonly LIKELY: 3};
/** Which value a voxel gets that both maps of a merge know. */
export const Rule: {readonly FIRST: 0; readonly GREATEST: 1; readonly LEAST: 2};
/** What `classes` says of a voxel or a block. */
export const VoxelClass: {readonly UNKNOWN: 0; readonly FREE: 1; readonly OCCUPIED: 2};
/** What stops a straight way first: nothing, an occupied voxel, an unknown one. */
export const CastKind: {readonly CLEAR: 0; readonly HIT: 1; readonly UNKNOWN: 2};
/** What has become of a voxel since the mark. */
export const ChangeKind: {
  readonly NEW: 0; readonly LOST: 1; readonly OCCUPIED: 2; readonly FREED: 3;
};

/** Points: x, y, z in metres one after another, or triples. A Float32Array stays one. */
export type Points = ArrayLike<number> | ReadonlyArray<ArrayLike<number>>;
/** One point: x, y, z in metres. */
export type Point = ArrayLike<number>;
/** The bytes of a file. */
export type Bytes = ArrayBuffer | ArrayBufferView;
export type Kind = "known" | "occupied" | "free";

/** A call that was refused: `name` is the refusal's, as "Outside", `message` its line, as
 * "refused 24 Outside index 3", and `hint` helps where a setting of the map is the cause. */
export class Refused extends Error {
  constructor(code: number, name: string, fields?: Record<string, number | bigint | string>);
  readonly code: number;
  readonly fields: Readonly<Record<string, number | bigint | string>>;
  readonly hint: string;
}
/** A call of a map that is closed. */
export class Closed extends Error {
  constructor(message?: string);
}
/** Memory ran out; of edits for that of row `index`. */
export class OutOfMemory extends Error {
  constructor(index?: number);
  readonly index: number | undefined;
}
/** A point that isn't finite, or is 10^7 m or more away; `index` is its row. */
export class BadPoints extends RangeError {
  constructor(what: string, index: number);
  readonly what: string;
  readonly index: number;
}
/** A call of a module that trapped in an earlier one. */
export class Stopped extends Error {
  constructor(cause?: unknown);
}

/** Blocks of a map: of each its depth (16 is a voxel), three indices, and value. */
export class Blocks {
  constructor(depth: Uint8Array, index: Uint16Array, value: Int32Array, resolutionNm: number);
  readonly depth: Uint8Array;
  readonly index: Uint16Array;
  readonly value: Int32Array;
  readonly resolutionNm: number;
  readonly length: number;
  /** The lowest corners in metres, flat. */
  lows(): Float64Array;
  /** The middles in metres, flat. */
  centers(): Float64Array;
  /** The edges in metres. */
  sizes(): Float64Array;
}

export interface Settings {
  hit?: number; miss?: number; min?: number; max?: number; threshold?: number;
  /** The most groups of eight nodes, 16 to 2^26. */
  maxGroups?: number;
  /** The most voxels that the beams of a scan may meet, 1 to 2^27. */
  maxCells?: number;
}
export interface ScanOptions {
  /** Beams are cut there, in metres. */
  range?: number;
  /** Log-odds of this scan alone; both or none. */
  hit?: number;
  miss?: number;
  /** Leaves depths below 16 to `refresh`. */
  lazy?: boolean;
}
export interface Odds {hit: number; miss: number; min: number; max: number; threshold: number}
export interface Counted {hits: number; frees: number}
export interface Box {low: [number, number, number]; high: [number, number, number]}
export interface Casts {kinds: Int8Array; keys: Uint16Array}
export interface Changes {keys: Uint16Array; kinds: Uint8Array}
/** 100 occupied, 0 free, -1 unknown; the row of the lowest y first. */
export interface Grid {cells: Int8Array; rows: number; columns: number}

/** A map. Keys are flat: three numbers from 0 to 65535 a voxel. */
export interface OccMap {
  readonly resolution: number;
  readonly resolutionNm: number;
  readonly odds: Odds;
  readonly limits: {maxGroups: number; maxCells: number};
  readonly stale: boolean;
  readonly tracked: boolean;
  /** The bytes that the map holds. */
  readonly memory: number;
  /** The box of `limit`. */
  readonly window: Box | undefined;
  readonly closed: boolean;

  /** Hits the voxels where beams end, and frees those on the way. Points are in the frame of the
   * sensor, which stands at `origin`, turned by `quaternion` (w, x, y, z). */
  scan(points: Points, origin?: Point,
    options?: ScanOptions & {quaternion?: ArrayLike<number>}): Counted;
  /** The same of points in the frame of the map. */
  scanFrom(origin: Point, points: Points, options?: ScanOptions): Counted;
  /** Edits voxels one after another: one event and number for all, or one each. */
  edit(points: Points, event: number | ArrayLike<number>, number?: number | ArrayLike<number>,
    options?: {lazy?: boolean}): void;
  /** Edits each voxel from that of `low` to that of `high`. */
  editBox(low: Point, high: Point, event: number, number?: number): void;
  /** Forgets each voxel outside of the box from that of `low` to that of `high`. */
  keepBox(low: Point, high: Point): void;
  /** From now on scans change only voxels of this box. */
  limit(low: Point, high: Point): void;
  noLimit(): void;
  refresh(): void;
  prune(): void;
  clear(): void;
  maxLikelihood(): void;
  /** Takes in what another map of the same module, resolution and log-odds knows, moved by `shift`,
   * three whole numbers of voxels. */
  merge(other: OccMap, rule?: number, shift?: ArrayLike<number>): void;
  /** Prunes, and counts the least tree. */
  counts(): {groups: number; nodes: number};

  leastTree(): {groups: number; nodes: number; leaves: number};
  /** Values, and `UNKNOWN`. */
  get(points: Points, depth?: number): Int32Array;
  /** A `VoxelClass` each. */
  classes(points: Points, depth?: number): Int8Array;
  /** Probabilities, and NaN where nothing is known. */
  probabilities(points: Points, depth?: number): Float64Array;
  /** What stops each straight way first: a `CastKind` and a key; one may stand for all. */
  cast(origins: Points, ends: Points, options?: {ignoreUnknown?: boolean}): Casts;
  /** The known blocks of a depth that meet a box. */
  list(low: Point, high: Point, depth?: number): Blocks;
  /** The greatest blocks of one value each, in Morton order; those that meet a box. */
  leaves(kind?: Kind, box?: {low?: Point; high?: Point}): Blocks;
  /** The keys of all voxels of a kind, in Morton order; a RangeError beyond `limit`. */
  voxels(kind?: Kind, limit?: number): Uint16Array;
  /** The middles of voxels in metres. */
  centers(keys: ArrayLike<number>): Float64Array;
  /** The least box that holds all voxels of a kind. */
  bounds(kind?: Kind): Box | undefined;
  /** The same in metres. */
  extent(kind?: Kind): {low: Float64Array; high: Float64Array} | undefined;
  /** What each column of voxels of a box shows. */
  grid(low: Point, high: Point): Grid;

  /** Sets the mark for `changes`. */
  track(): void;
  untrack(): void;
  /** The voxels that have another class than at the mark, and a `ChangeKind` each. */
  changes(): Changes;

  /** The .bt file of the map. */
  toBt(): Uint8Array;
  /** Its snapshot, with values. */
  toSnapshot(): Uint8Array;
  loadBt(bytes: Bytes): void;
  loadSnapshot(bytes: Bytes): void;

  /** Gives the map's memory back; so does `using`, and in time that nothing leads to the map. */
  close(): void;
  [Symbol.dispose](): void;
}

export interface OccMapClass {
  new (resolution: number, settings?: Settings): OccMap;
  /** A map of a .bt file, with its resolution. */
  fromBt(bytes: Bytes, settings?: Settings): OccMap;
  /** A map of a snapshot, with its resolution and log-odds. */
  fromSnapshot(bytes: Bytes, settings?: Settings): OccMap;
  /** A map of whichever of both it is. */
  open(bytes: Bytes, settings?: Settings): OccMap;
}

export interface Octofix {
  readonly OccMap: OccMapClass;
  /** The keys of the voxels that a straight way meets, in order. */
  ray(resolution: number, origin: Point, end: Point): Uint16Array;
  readonly version: string;
  /** The bytes of the module's memory, which all its maps share. */
  readonly memory: number;
}

/** The module, or where it is. */
export type Source = string | URL | ArrayBuffer | Uint8Array | WebAssembly.Module;

/** Loads the library, with its maps in a memory of their own, of at most so many bytes. */
export function load(source?: Source, options?: {memory?: number}): Promise<Octofix>;
/** Whether bytes begin as a snapshot. */
export function isSnapshot(bytes: Bytes): boolean;
