// A map, or two side by side, of which the library in the worker tells.

import {FREE, OCCUPIED, UNKNOWN} from "./tree.js";
import {spanIn} from "./casting.js";
import {element} from "./panel.js";
import {NAMES, middleOf} from "./telling.js";
import {Viewer} from "./viewer.js";

const INSIDE = 1e-4;                    // voxels

export const count = number => number.toLocaleString("en");
export const volume = (voxels, resolution) => `${(voxels * resolution ** 3).toFixed(3)} m³`;
const placeOf = (key, nanometres) => key.map(it => middleOf(it, nanometres)).join(" ");

export class Inspector extends Viewer {
  // desk: the calls of the worker; maps: the numbers of the map there, or of two.
  constructor(about, tree, supply, desk, maps) {
    super(about, tree, supply);
    Object.assign(this, {desk, maps, asked: 0});
    element("click").addEventListener("change", () => this.begin());
  }

  // Forgets what was clicked.
  begin() {
    this.from = undefined;
    this.say(undefined);
    this.redraw();
  }

  // The keys of the voxel that is seen at a pixel: of two maps that which is nearer.
  async seen(x, y) {
    const way = this.wayTo(x, y);
    const low = [this.low[0], this.low[1], this.slice.low];
    const high = [this.high[0], this.high[1], this.slice.high];
    const [enter, leave] = spanIn(way.start, way.way, low, high);
    if (enter >= leave) return undefined;
    const inside = part => way.start.map((it, n) =>
      Math.min(Math.max(it + part * way.way[n], low[n] + INSIDE), high[n] - INSIDE));
    const isCut = this.shown.free && this.isInCut(way, {part: enter});
    const found = await Promise.all(this.maps.map(it =>
      this.desk.call("seen", it, inside(enter), inside(leave), isCut)));
    const far = ({key}) => Math.hypot(...key.map((it, n) => it + 0.5 - way.start[n]));
    return found.filter(Boolean).sort((a, b) => far(a) - far(b))[0]?.key;
  }

  async tell(x, y) {
    const asked = ++this.asked;
    try {
      const key = await this.seen(x, y);
      const text = key ? await this.textOf(key) : "";
      if (asked !== this.asked) return;
      element("told").textContent = text;
      this.painter.mark(key);
      this.redraw();
    } catch (why) {
      element("told").textContent = `The map can't be asked: ${why.message}.`;
    }
  }

  async textOf(key) {
    const how = element("click").value, here = await this.about(key);
    if (how === "tell") return here;
    if (!this.from) {
      this.from = key;
      return `${here}; from here: click another voxel`;
    }
    const from = this.from;
    this.from = undefined;
    return how === "way" ? this.way(from, key) : this.box(from, key);
  }

  // What each map says of a voxel.
  async about(key) {
    const found = await Promise.all(this.maps.map(it => this.desk.call("ask", it, key)));
    const place = `at ${placeOf(key, this.nanometres)} m`, end = `key ${key.join(" ")}`;
    const values = found.map(({value, probability}, n) => value === undefined || !this.hasValues[n]
      ? [] : [`value ${value}, probability ${probability.toFixed(3)}`]);
    if (found.length === 1)
      return [`${NAMES[found[0].kind]} ${place}`, ...values[0], end].join("; ");
    const said = found.map(({kind}, n) => [NAMES[kind], ...values[n]].join(", "));
    return `${place}: first ${said[0]}; second ${said[1]}; ${end}`;
  }

  // How far it is between two voxels, and what the straight way meets first.
  async way(from, to) {
    const metres = from.map((it, n) => (to[n] - it) * this.resolution);
    const across = Math.hypot(metres[0], metres[1]), parts = [
      `${Math.hypot(...metres).toFixed(3)} m away`, `${across.toFixed(3)} m across`,
      `${metres[2].toFixed(3)} m up`,
    ];
    const found = await Promise.all(this.maps.map(it => this.desk.call("between", it, from, to)));
    for (const {meets, key} of found) {
      const where = key ? ` at ${placeOf(key, this.nanometres)} m` : "";
      parts.push(`the straight way meets ${meets}${where}${meets === "unknown" ? " first" : ""}`);
    }
    return parts.join("; ");
  }

  // How many voxels of each class lie in the box of two.
  async box(from, to) {
    const low = from.map((it, n) => Math.min(it, to[n]));
    const high = from.map((it, n) => Math.max(it, to[n]));
    const size = low.map((it, n) => (high[n] - it + 1) * this.resolution);
    const parts = [`a box of ${size.map(it => +it.toFixed(4)).join(" × ")} m`];
    const found = await Promise.all(this.maps.map(it => this.desk.call("box", it, low, high)));
    for (const counts of found)
      for (const kind of [OCCUPIED, FREE, UNKNOWN]) {
        const voxels = `${count(counts[kind])} ${NAMES[kind]}`;
        parts.push(`${voxels} (${volume(counts[kind], this.resolution)})`);
      }
    return parts.join("; ");
  }

  // (a reload forgets the map, so that no address can show it again)
  keep() {}

  end() {
    this.supply.end();
    this.painter.end();
  }
}
