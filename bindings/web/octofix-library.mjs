// The module of the library for octofix.mjs: its memory and calls, what they refuse, and numbers of
// JavaScript made those that it takes.

export const CODES = Object.freeze({
  DONE: 0, BAD_MODEL: 4, FULL: 23, OUTSIDE: 24, FILE_TOO_LARGE: 34, OTHER_RESOLUTION: 35,
  CLOSED: 40, UNKNOWN: 42, CLEAR: 43, NONE: 44, MEMORY: 45, SMALL_BUFFER: 46, BAD_ARGUMENT: 47,
});
// Codes that are answers, and no faults.
const ANSWERS = new Set([
  CODES.DONE, CODES.UNKNOWN, CODES.CLEAR, CODES.NONE, CODES.SMALL_BUFFER,
]);
// What refusals name beside their names, by number.
const FIELDS = {
  4: ["field"], 7: ["index"], 8: ["index", "cells"], 9: ["count"], 13: ["field"], 14: ["field"],
  16: ["at"], 17: ["at"], 18: ["at"], 19: ["said", "found"], 21: ["at"], 23: ["groups", "need"],
  24: ["point"], 27: ["count"], 35: ["file", "map"], 38: ["count"], 47: ["index"],
};
export const ODDS_FIELDS = ["hit", "miss", "min", "max", "threshold"];
const HEADER_FIELDS = ["id", "res", "size", "data"];
// Refusals of which a row of what was passed can be the cause.
const OF_ROWS = new Set([CODES.FULL, CODES.OUTSIDE, CODES.BAD_ARGUMENT]);
const HINTS = {
  8: "maxCells of the map allows no more (up to 2^27); with a range beams meet fewer",
  23: "maxGroups of the map allows no more (up to 2^26)",
};

export const NANOMETRES = 1e9, DEPTH = 16, ORIGIN = 1 << 15;
export const POINT = 24;                // bytes of octofix_point
const END = 1e16;
// Where what is small stands in a buffer of each library: details, results and what is passed.
export const PLACES = Object.freeze({
  DETAILS: 0, RESULT: 16, FIRST: 80, SECOND: 112, OPTIONS: 144, COUNT: 168, BYTES: 176,
});
const FIRST_BYTES = 1 << 21;            // of a list

// A call that was refused; the map is as it was before it, but for the edits before `index`.
export class Refused extends Error {
  constructor(code, name, fields = {}) {
    const words = Object.entries(fields).map(([key, it]) => key === "field" ? it : `${key} ${it}`);
    super([`refused ${code} ${name}`, ...words].join(" "));
    Object.assign(this, {code, name, fields, hint: HINTS[code] ?? ""});
  }
}

// A call of a map that is closed.
export class Closed extends Error {
  constructor(message = "the map is closed") {
    super(message);
    this.name = "Closed";
  }
}

// Memory that ran out; of edits, for that of row `index`, with those before it done.
export class OutOfMemory extends Error {
  constructor(index) {
    const where = index === undefined ? "" : `, at row ${index}`;
    super(`the library has no memory for this call${where}`);
    Object.assign(this, {name: "OutOfMemory", index});
  }
}

// Points of which row `index` isn't finite, or is 10^7 m or more away from 0 on an axis.
export class BadPoints extends RangeError {
  constructor(what, index) {
    super(`${what}: row ${index} isn't finite, or is out of range`);
    Object.assign(this, {name: "BadPoints", what, index});
  }
}

// A call of a library that trapped in an earlier call, as where its stack ran out.
export class Stopped extends Error {
  constructor(cause) {
    super("the library stopped, and answers no more", {cause});
    this.name = "Stopped";
  }
}

// Blocks of a map: of each its depth, its three numbers among the blocks of that depth, its value.
export class Blocks {
  constructor(depth, index, value, resolutionNm) {
    Object.assign(this, {depth, index, value, resolutionNm});
  }

  get length() {
    return this.depth.length;
  }

  // The lowest corner of each in metres, flat.
  lows() {
    return this.#corners(0);
  }

  // The middle of each in metres, flat.
  centers() {
    return this.#corners(1);
  }

  // The edge of each in metres.
  sizes() {
    const sizes = new Float64Array(this.length);
    for (let at = 0; at < sizes.length; at++)
      sizes[at] = (1 << DEPTH - this.depth[at]) * this.resolutionNm / NANOMETRES;
    return sizes;
  }

  // The place that lies so many halves of a block from its lowest corner. (What is halved here is
  // whole, so that the quotient is the nearest number.)
  #corners(halves) {
    const {depth, index, resolutionNm} = this, places = new Float64Array(index.length);
    for (let at = 0; at < places.length; at++) {
      const edge = 1 << DEPTH - depth[at / 3 | 0];
      const low = index[at] * edge - ORIGIN;
      places[at] = halves ? (2 * low + edge) * resolutionNm / (2 * NANOMETRES)
        : low * resolutionNm / NANOMETRES;
    }
    return places;
  }
}

// -- numbers of JavaScript made those of the library

export const big = it => BigInt(it);

// The nearest whole number, to the even one of two, as C, numpy and Python have it.
export function rounded(number) {
  const whole = Math.round(number);
  return Math.abs(number % 1) === 0.5 && whole % 2 ? whole - 1 : whole;
}

export function lengthOf(metres, what) {
  const scaled = Number(metres) * NANOMETRES;
  if (!(scaled >= 0 && scaled < END))
    throw new RangeError(`${what} is a length in metres from 0 to below 10^7, not ${metres}`);
  return rounded(scaled);
}

// The edge of a voxel in nanometres; 0, which the library refuses, where it is none.
export function edgeOf(metres) {
  const scaled = Number(metres) * NANOMETRES;
  return Math.abs(scaled) < END ? rounded(scaled) : 0;
}

export function checkWhole(number, what) {
  if (!Number.isInteger(number)) throw new TypeError(`${what} has to be whole, and not ${number}`);
  return number;
}

// The number of 32 bits that is nearest, so that a call can be passed each whole number.
export const integer32 = (number, what) =>
  Math.max(-(2 ** 31), Math.min(checkWhole(number, what), 2 ** 31 - 1));

// By how many voxels what is known is moved along x, y and z.
export function stepsOf(shift) {
  const steps = Array.from(shift, it => integer32(it, "shift"));
  if (steps.length !== 3)
    throw new RangeError(`shift is three whole numbers, and not ${steps.length}`);
  return steps;
}

// Points as numbers one after another, of 64 bits or of 32 as they came.
export function numbersOf(points, what) {
  const flat = Array.isArray(points) && typeof points[0] === "object"
    ? points.flatMap(it => Array.from(it)) : points;
  const isFloat = flat instanceof Float64Array || flat instanceof Float32Array;
  const numbers = isFloat ? flat : Float64Array.from(flat);
  if (numbers.length % 3)
    throw new RangeError(`${what} are x, y, z each, and not ${numbers.length} numbers`);
  return numbers;
}

export function bytesOf(data) {
  return ArrayBuffer.isView(data)
    ? new Uint8Array(data.buffer, data.byteOffset, data.byteLength) : new Uint8Array(data);
}

// The numbers w, x, y, z scaled so that the greatest is 1, or four zeros.
export function quaternionOf(values) {
  const four = Array.from(values, Number);
  if (four.length !== 4 || !four.every(Number.isFinite))
    throw new RangeError("a quaternion is four finite numbers (w, x, y, z)");
  const greatest = Math.max(...four.map(Math.abs)) || 1;
  return four.map(it => it / greatest);
}

// The rows of the matrix by which a quaternion turns points, or none where it turns nothing.
export function matrixOf([w, x, y, z]) {
  if (!x && !y && !z) return undefined;
  const size = w * w + x * x + y * y + z * z;
  return [
    w * w + x * x - y * y - z * z, 2 * (x * y - w * z), 2 * (x * z + w * y),
    2 * (x * y + w * z), w * w - x * x + y * y - z * z, 2 * (y * z - w * x),
    2 * (x * z - w * y), 2 * (y * z + w * x), w * w - x * x - y * y + z * z,
  ].map(it => it / size);
}


// -- the module

// The module's exports and memory: what is passed and answered goes through buffers in there.
export class Library {
  constructor(instance) {
    this.calls = instance.exports;
    this.memory = instance.exports.memory;
    this.fault = undefined;
    this.small = this.take(PLACES.BYTES);
  }

  // An export's answer. Addresses, counts and lengths are passed as BigInt.
  run(name, ...passed) {
    if (this.fault) throw new Stopped(this.fault);
    try {
      return this.calls[`octofix_${name}`](...passed);
    } catch (fault) {
      // (nothing that is proved traps but for want of stack)
      if (!(fault instanceof WebAssembly.RuntimeError)) throw fault;
      this.fault = fault;
      throw new Stopped(fault);
    }
  }

  take(bytes) {
    const found = Number(this.run("host_take", big(bytes)));
    if (!found) throw new OutOfMemory();
    return found;
  }

  free(buffer) {
    if (!this.fault) this.run("host_free", big(buffer));
  }

  // What `use` answers, which has a buffer meanwhile.
  with(bytes, use) {
    const buffer = this.take(bytes + 16);
    try {
      return use(buffer);
    } finally {
      this.free(buffer);
    }
  }

  // (a buffer of the memory is none any more once the memory has grown)
  get view() {
    return new DataView(this.memory.buffer);
  }

  number(place) {
    const found = this.view.getBigUint64(this.small + place, true);
    return found <= Number.MAX_SAFE_INTEGER ? Number(found) : found;
  }

  // Calls an export, and answers its code where that is no fault.
  call(name, ...passed) {
    return this.checked(this.run(name, ...passed), false);
  }

  // The same of one whose last parameter is for details.
  detailed(name, ...passed) {
    return this.checked(this.run(name, ...passed, big(this.small + PLACES.DETAILS)), true);
  }

  checked(code, hasDetails) {
    if (ANSWERS.has(code)) return code;
    if (code === CODES.CLOSED) throw new Closed();
    if (code === CODES.MEMORY) throw new OutOfMemory();
    throw this.refusal(code, hasDetails);
  }

  refusal(code, hasDetails) {
    const numbers = hasDetails ? [0, 8].map(it => this.number(PLACES.DETAILS + it)) : [0, 0];
    const fields = Object.fromEntries((FIELDS[code] ?? []).map((key, n) => [key, numbers[n]]));
    if ("field" in fields)
      fields.field = (code === CODES.BAD_MODEL ? ODDS_FIELDS : HEADER_FIELDS)[numbers[0]];
    return this.refused(code, fields);
  }

  refused(code, fields) {
    return new Refused(code, this.text("code_text", code) ?? "?", fields);
  }

  // The refusal of one row; only where the row is at fault its number is named.
  refusedRow(code, index, {point, ...fields} = {}) {
    return this.refused(code, OF_ROWS.has(code) ? {...fields, index} : fields);
  }

  // A text of the library, or none.
  text(name, ...passed) {
    const place = this.small + PLACES.RESULT, {view} = this;
    view.setBigUint64(place, big(place), true);
    view.setBigUint64(place + 8, 1n, true);
    if (this.run(name, ...passed, big(place)) !== CODES.DONE) return undefined;
    const [start, length] = [0, 8].map(it => this.number(PLACES.RESULT + it));
    return new TextDecoder().decode(new Uint8Array(this.memory.buffer, start, length - 1));
  }

  whole(value, what, low, high) {
    if (checkWhole(value, what) < low || value > high)
      throw this.refused(CODES.BAD_ARGUMENT, {field: what});
    return value;
  }

  // Writes points as nanometres, `stride` numbers from one to the next. One may stand for many.
  write(numbers, what, places, {stride = 3, turn, count = numbers.length / 3} = {}) {
    const isShort = numbers instanceof Float32Array, step = numbers.length === 3 ? 0 : 3;
    this.with(numbers.byteLength + 80, buffer => {
      const matrix = buffer + numbers.byteLength + (isShort ? 4 * (numbers.length % 2) : 0);
      new numbers.constructor(this.memory.buffer, buffer, numbers.length).set(numbers);
      if (turn) new Float64Array(this.memory.buffer, matrix, 9).set(turn);
      const passed = [buffer, step, count, turn ? matrix : 0, places, stride];
      const done = Number(this.run(`host_places${isShort ? "_32" : ""}`, ...passed.map(big)));
      if (done < count) throw new BadPoints(what, done);
    });
  }

  // The address of one point among what is small.
  point(metres, what, place) {
    const numbers = numbersOf(metres, what);
    if (numbers.length !== 3) throw new RangeError(`${what} is one point of three numbers`);
    this.write(numbers, what, this.small + place);
    return big(this.small + place);
  }

  corners(low, high) {
    return [this.point(low, "low", PLACES.FIRST), this.point(high, "high", PLACES.SECOND)];
  }

  // What `use` answers, which has the points' nanometres meanwhile, and how many they are.
  places(points, what, use, turn) {
    const numbers = numbersOf(points, what), count = numbers.length / 3;
    return this.with(POINT * count, places => {
      this.write(numbers, what, places, {turn});
      return use(places, count);
    });
  }

  // The bytes of what a call lists, a copy. It gets a larger buffer where the first is too small.
  list(size, call) {
    let room = Math.floor(FIRST_BYTES / size);
    for (;;) {
      const found = this.with(room * size, buffer => {
        const code = call(big(buffer), big(room), big(this.small + PLACES.COUNT));
        room = this.number(PLACES.COUNT);
        return code === CODES.DONE ? this.memory.buffer.slice(buffer, buffer + room * size) : null;
      });
      if (found) return found;
    }
  }
}
