// What is shown, and how it is looked at.

import {FREE, OCCUPIED, UNKNOWN, classOf} from "./tree.js";
import {Camera} from "./camera.js";
import {cast} from "./casting.js";
import {Painter} from "./painter.js";
import {Panel, element} from "./panel.js";
import {Hands} from "./hands.js";
import {lineOn} from "./telling.js";
import {addressOf, recall} from "./address.js";

const SLOW = 60, FIRST_SLOW = 1000, REST = 250;         // milliseconds

export class Viewer {
  // about: the bounds of what is known and the heights of what is occupied in keys, nanometres of
  // a voxel, where its origin lies, and colours; supply: the faces of the tree.
  constructor(about, tree, supply) {
    Object.assign(this, about, {tree, supply, canvas: element("canvas")});
    this.high = about.high.map(it => it + 1);
    const middle = this.low.map((it, axis) => (it + this.high[axis]) / 2);
    const radius = Math.hypot(...this.low.map((it, axis) => this.high[axis] - it)) / 2;
    this.middle = middle.map(Math.round);
    this.camera = new Camera(
      middle.map((it, axis) => it - this.middle[axis]), Math.max(radius, 2), this.canvas);
    this.slice = {low: this.low[2], high: this.high[2]};
    this.shown = {occupied: true, free: false, frontier: false};
    this.painter = new Painter(this.canvas, this);
    this.panel = new Panel(this);
    this.hands = new Hands(this);
    recall(this, location.hash);
    this.changed();
    addEventListener("resize", () => this.redraw());
  }

  // Finds fewer blocks for while something moves, where a picture takes long. (The first one takes
  // longer.)
  weigh() {
    if (this.painter.time(this.camera) > FIRST_SLOW || this.painter.time(this.camera) > SLOW)
      this.painter.coarsen();
  }

  redraw() {
    this.isStale = true;
    this.grow();
  }

  // There is more to draw than in the picture, which is right so far, or stale.
  grow() {
    this.isAsked ||= requestAnimationFrame(() => {
      this.isAsked = undefined;
      const isCoarse = Boolean(this.isMoving && this.painter.coarse), {isStale} = this;
      this.isStale = false;
      if (isStale || isCoarse || this.painter.isCoarse) this.painter.draw(this.camera, isCoarse);
      else this.painter.drawMore(this.camera);
    });
  }

  // Something moves: it is drawn coarsely until it rests, where all of it takes long.
  move() {
    this.isMoving = true;
    clearTimeout(this.resting);
    this.resting = setTimeout(() => {
      this.isMoving = false;
      this.keep();
      if (this.painter.isCoarse) this.redraw();
    }, REST);
    this.redraw();
  }

  // Something else is shown, or it is cut elsewhere; what was told may not be seen any more.
  changed() {
    this.say(undefined);
    this.painter.show(this.shown, this.slice);
    this.panel.refresh();
    this.move();
  }

  keep() {
    try {
      history.replaceState(null, "", addressOf(this));
    } catch {
      // (some browsers let few changes through, or none of a file)
    }
  }

  look(around, above) {
    this.camera.look(around, Math.min(above, 89.9));
    this.move();
  }

  lookAt(hit) {
    if (hit) this.camera.at = hit.key.map((it, axis) => it + 0.5 - this.middle[axis]);
    this.move();
  }

  // Cuts below or above a layer; at least one is left.
  cut(end, layer) {
    const {slice, low, high} = this;
    const bounds = end === "low" ? [low[2], high[2] - 1] : [low[2] + 1, high[2]];
    slice[end] = Math.min(Math.max(layer, bounds[0]), bounds[1]);
    if (end === "low") slice.high = Math.max(slice.high, slice.low + 1);
    else slice.low = Math.min(slice.low, slice.high - 1);
    this.changed();
  }

  // Comes nearer to what stands at a pixel, or goes away from it.
  nearer(factor, x, y) {
    const hit = this.castTo(x, y, it => it === OCCUPIED);
    this.camera.nearer(factor, this.camera.wayTo(x, y), hit?.part);
    this.move();
  }

  // The way into the picture at a pixel, in keys.
  wayTo(x, y) {
    const {start, way} = this.camera.wayTo(x, y);
    return {start: start.map((it, axis) => it + this.middle[axis]), way};
  }

  castTo(x, y, isWanted) {
    const low = [this.low[0], this.low[1], this.slice.low];
    const high = [this.high[0], this.high[1], this.slice.high];
    return cast(this.tree, this.wayTo(x, y), {low, high}, isWanted);
  }

  // What is seen at a pixel: the free voxel through which the map is cut there; else the first that
  // is occupied; and where there is none, or they aren't shown, the first that is known.
  pick(x, y) {
    const first = this.shown.free && this.castTo(x, y, () => true);
    if (first && classOf(first.node) === FREE && this.isInCut(this.wayTo(x, y), first))
      return first;
    const occupied = this.shown.occupied && this.castTo(x, y, it => it === OCCUPIED);
    return occupied || this.castTo(x, y, it => it !== UNKNOWN);
  }

  // Whether a way enters the map through a cut.
  isInCut({start, way}, {part}) {
    const height = start[2] + part * way[2], isAt = it => Math.abs(height - it) < 0.01;
    return this.painter.isCutAbove && way[2] < 0 && isAt(this.slice.high) ||
      this.painter.isCutBelow && way[2] > 0 && isAt(this.slice.low);
  }

  // Says what is seen at a pixel, and marks it.
  tell(x, y) {
    this.say(this.pick(x, y));
    this.redraw();
  }

  say(hit) {
    element("told").textContent = hit
      ? lineOn(hit, this.tree, this.nanometres, this.origin) : "";
    this.painter.mark(hit?.key);
  }
}
