/** The library in a worker: the calls of octofix.d.ts as promises. */

import type {Bytes, OccMap, Point, Settings, Source} from "./octofix.js";

type Promised<It> = It extends (...passed: infer Passed) => infer Answer
  ? (...passed: {[At in keyof Passed]: Passed[At] extends OccMap ? RemoteMap : Passed[At]})
    => Promise<Answer>
  : Promise<It>;

/** A map in the worker; its properties are promises, too. */
export type RemoteMap = {
  readonly [Name in Exclude<keyof OccMap, symbol>]: Promised<OccMap[Name]>;
} & {[Symbol.asyncDispose](): Promise<void>};

export interface RemoteOctofix {
  readonly version: string;
  create(resolution: number, settings?: Settings): Promise<RemoteMap>;
  fromBt(bytes: Bytes, settings?: Settings): Promise<RemoteMap>;
  fromSnapshot(bytes: Bytes, settings?: Settings): Promise<RemoteMap>;
  open(bytes: Bytes, settings?: Settings): Promise<RemoteMap>;
  ray(resolution: number, origin: Point, end: Point): Promise<Uint16Array>;
  memory(): Promise<number>;
  /** Ends the worker and its maps. */
  end(): unknown;
}

/** Starts a worker that has the library. */
export function start(source?: Source, options?: {memory?: number}): Promise<RemoteOctofix>;
