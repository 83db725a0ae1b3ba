// Draws the map.

import {FREE, OCCUPIED, UNKNOWN} from "./tree.js";
import {SIDES, Squares} from "./faces.js";
import {Parts, Stored, useProgram} from "./shaders.js";

// Red, green, blue, and how much is covered; a last number of 0 is for the colour of the height.
const BY_HEIGHT = [0, 0, 0, 0], FRONTIER = [0.94, 0.58, 0.17, 0.3], MARK = [1, 0.1, 0.3, 1];
const FREE_FACE = [0.49, 0.73, 0.91, 0.16], FREE_CUT = [0.49, 0.73, 0.91, 0.5];
const BELOW = 4, ABOVE = 5;             // sides
const UNDERNEATH = 0.5;                 // how bright what looks down is
const NOWHERE = 1e6;
const FEW_FACES = 30000;

export class Painter {
  // map: its supply of faces, low, high and middle in voxels, the heights of what is occupied,
  // colours, and what draws it anew.
  constructor(canvas, map) {
    // (what is drawn stays, so that more is drawn over it)
    const gl = canvas.getContext("webgl2",
      {alpha: false, antialias: true, preserveDrawingBuffer: true});
    if (!gl) throw Error("this browser has no WebGL 2");
    Object.assign(this, {canvas, gl, map, uniforms: useProgram(gl), cuts: {}});
    const [up, x, y] = map.brightness;
    this.light = [x, x, y, y, UNDERNEATH, up];
    this.solid = this.store(OCCUPIED, [UNKNOWN, FREE]);
    this.apart = [];                    // what else is drawn, each in a colour of its own
    this.setUp();
  }

  setUp() {
    const {gl, uniforms, map} = this;
    gl.clearColor(1, 1, 1, 1);
    gl.enable(gl.DEPTH_TEST);
    gl.blendFunc(gl.SRC_ALPHA, gl.ONE_MINUS_SRC_ALPHA);
    gl.uniform3i(uniforms.middle, ...map.middle);
    gl.uniform2f(uniforms.span, ...map.occupied.map(it => it + 0.5 - map.middle[2]));
    gl.uniform3fv(uniforms.heights, map.colours.flat().map(it => it / 255));
  }

  // The faces of a class, which may come later, and in parts.
  store(kind, behind, supply = this.map.supply) {
    const found = new Parts();
    supply.faces(kind, behind, it => this.add(found, it));
    return found;
  }

  add(parts, lists) {
    parts.add(new Stored(this.gl, lists));
    this.map.grow();
  }

  // Draws the occupied blocks of another supply too, in a colour.
  drawApart(supply, [red, green, blue]) {
    const faces = this.store(OCCUPIED, [UNKNOWN, FREE], supply);
    this.apart.push({faces, colour: [red / 255, green / 255, blue / 255, 1]});
  }

  // Says what is to be drawn from now on: which classes, and from which layer up to which one.
  show(shown, slice) {
    Object.assign(this, {shown, slice});
    if (shown.frontier || shown.free) this.border ||= this.store(FREE, [UNKNOWN]);
    if (shown.free) this.walls ||= this.store(FREE, [OCCUPIED]);
    Object.values(this.cuts).forEach(it => it.free());
    this.cuts = {};
    if (!this.isCutBelow && !this.isCutAbove) return;
    if (shown.occupied) this.cuts.occupied = this.cutThrough(OCCUPIED);
    if (shown.free) this.cuts.free = this.cutThrough(FREE);
  }

  get isCutBelow() {
    return this.slice.low > this.map.low[2];
  }

  get isCutAbove() {
    return this.slice.high < this.map.high[2];
  }

  cutThrough(kind) {
    const found = new Parts(), {low, high} = this.slice;
    const heights = [this.isCutBelow ? low : undefined, this.isCutAbove ? high - 1 : undefined];
    this.map.supply.layers(kind, heights, it => this.add(found, it));
    return found;
  }

  // Marks one voxel, or none.
  mark(key) {
    this.marked?.free();
    this.marked = undefined;
    if (!key) return;
    const one = new Squares();
    one.add(...key, 1);
    this.marked = new Stored(this.gl, [one]);
  }

  // Finds blocks that are few enough to be drawn at once, for while the map is turned.
  coarsen() {
    this.map.supply.coarse(FEW_FACES, it => {
      this.coarse = new Stored(this.gl, it);
    });
  }

  // Draws all, or what is occupied alone and in few blocks.
  draw(camera, isCoarse) {
    const {gl, uniforms} = this;
    this.fit();
    gl.clear(gl.COLOR_BUFFER_BIT | gl.DEPTH_BUFFER_BIT);
    gl.uniformMatrix4fv(uniforms.view, false, camera.matrix());
    this.eye = camera.axes().eye.map((it, axis) => it + this.map.middle[axis]);
    this.useSlice();
    const {opaque, clear} = this.parts();
    for (const it of [...opaque, ...clear]) it.drawn = 0;
    this.isCoarse = isCoarse;
    this.paintAll(isCoarse);
  }

  // Draws what came since the last picture over it, so that all parts together take as long as one
  // picture; and all anew where something opaque came after what one sees through.
  drawMore(camera) {
    const {opaque, clear} = this.parts();
    if (opaque.some(it => it.isGrown) && clear.some(it => it.drawn)) this.draw(camera, false);
    else this.paintAll(false);
  }

  // What comes in parts.
  parts() {
    const {solid, apart, border, walls, cuts} = this;
    return {
      opaque: [solid, cuts.occupied, ...apart.map(it => it.faces)].filter(Boolean),
      clear: [border, walls, cuts.free].filter(Boolean),
    };
  }

  paintAll(isCoarse) {
    const {shown} = this;
    if (shown.occupied) {
      this.paint(isCoarse ? this.coarse : this.solid, BY_HEIGHT);
      this.close(this.cuts.occupied, BY_HEIGHT);
      for (const {faces, colour} of this.apart) this.paint(faces, colour);
    }
    if (this.marked) this.paintMark();
    this.paintClear(isCoarse);
    const {opaque, clear} = this.parts();
    for (const it of [...opaque, ...clear]) it.drawn = it.all.length;
  }

  // Draws what one sees through.
  paintClear(isCoarse) {
    const {gl, shown} = this;
    gl.enable(gl.BLEND);
    gl.depthMask(false);
    if (!isCoarse) {
      if (shown.frontier) this.paint(this.border, FRONTIER);
      else if (shown.free) this.paint(this.border, FREE_FACE);
      if (shown.free && !shown.occupied) this.paint(this.walls, FREE_FACE);
    }
    if (shown.free) this.close(this.cuts.free, FREE_CUT);
    gl.depthMask(true);
    gl.disable(gl.BLEND);
  }

  // Gives the picture as many pixels as its place has.
  fit() {
    const {canvas, gl} = this, ratio = Math.min(devicePixelRatio, 2);
    const width = Math.round(canvas.clientWidth * ratio);
    const height = Math.round(canvas.clientHeight * ratio);
    if (canvas.width === width && canvas.height === height) return;
    Object.assign(canvas, {width, height});
    gl.viewport(0, 0, width, height);
  }

  // (Where nothing is cut off, the outermost faces stand in the lists.)
  useSlice() {
    const middle = this.map.middle[2], {low, high} = this.slice;
    this.gl.uniform2f(this.uniforms.slice, this.isCutBelow ? low - middle : -NOWHERE,
      this.isCutAbove ? high - middle : NOWHERE);
  }

  paint(stored, colour) {
    this.use(colour, false);
    for (const side of SIDES) if (this.isSeen(side)) this.drawSide(stored, side, side);
  }

  // Closes what is cut open.
  close(stored, colour) {
    if (!stored) return;
    this.use(colour, true);
    this.drawSide(stored, 0, BELOW);
    this.drawSide(stored, 1, ABOVE);
  }

  paintMark() {
    const {gl} = this;
    gl.enable(gl.POLYGON_OFFSET_FILL);
    gl.polygonOffset(-2, -2);
    gl.uniform2f(this.uniforms.slice, -NOWHERE, NOWHERE);
    this.use(MARK, false);
    for (const side of SIDES) this.drawSide(this.marked, 0, side);
    gl.disable(gl.POLYGON_OFFSET_FILL);
    this.useSlice();
  }

  use(colour, isCut) {
    this.gl.uniform4f(this.uniforms.colour, ...colour);
    this.gl.uniform1i(this.uniforms.isCut, isCut);
  }

  drawSide(stored, run, side) {
    this.gl.uniform1i(this.uniforms.side, side);
    this.gl.uniform1f(this.uniforms.light, this.light[side]);
    stored.draw(run, this.uniforms);
  }

  // Whether a face that looks to this side can be seen from where the eye is.
  isSeen(side) {
    const axis = side >> 1, at = this.eye[axis];
    return side & 1 ? at > this.map.low[axis] : at < this.map.high[axis];
  }

  // How long a picture takes in milliseconds. (Reading a pixel waits until it is drawn.)
  time(camera) {
    const began = performance.now();
    this.draw(camera, false);
    this.gl.readPixels(0, 0, 1, 1, this.gl.RGBA, this.gl.UNSIGNED_BYTE, new Uint8Array(4));
    return performance.now() - began;
  }

  // Gives all back that it has of the graphics processor.
  end() {
    this.gl.getExtension("WEBGL_lose_context")?.loseContext();
  }
}
