// Where the map is looked at from. Places are in voxels from a corner near the middle of the map.

const FOCAL = 1 / Math.tan(Math.PI / 8);
const STEEPEST = 89.9;

export const dot = (a, b) => a[0] * b[0] + a[1] * b[1] + a[2] * b[2];
const radians = degrees => degrees * Math.PI / 180;

export class Camera {
  // middle and radius: of what is known; canvas: what it is drawn on.
  constructor(middle, radius, canvas) {
    Object.assign(this, {middle, radius, canvas});
    this.look(235, 35);
  }

  // Looks at the whole from a direction, in degrees from x towards y, and from above the ground.
  look(around, above) {
    Object.assign(this, {around, above, far: 2.2 * this.radius, at: this.middle});
  }

  axes() {
    const turn = radians(this.around), rise = radians(this.above);
    const back = [Math.cos(turn) * Math.cos(rise), Math.sin(turn) * Math.cos(rise), Math.sin(rise)];
    const right = [-Math.sin(turn), Math.cos(turn), 0];
    const up = [-Math.cos(turn) * Math.sin(rise), -Math.sin(turn) * Math.sin(rise), Math.cos(rise)];
    return {right, up, back, eye: this.at.map((it, n) => it + this.far * back[n])};
  }

  // The matrix that takes places to the picture, column by column.
  matrix() {
    const {right, up, back, eye} = this.axes();
    const wide = this.canvas.clientWidth / this.canvas.clientHeight, away = Math.hypot(...eye);
    const far = away + 1.1 * this.radius;
    const near = Math.max(away - 1.1 * this.radius, far / 4000, 0.3);
    const scale = (far + near) / (near - far), shift = 2 * far * near / (near - far);
    const [across, along, behind] = [right, up, back].map(it => [...it, -dot(it, eye)]);
    const rows = [
      across.map(it => it * FOCAL / Math.max(wide, 1)),
      along.map(it => it * FOCAL * Math.min(wide, 1)),
      behind.map((it, n) => it * scale + (n === 3 ? shift : 0)),
      behind.map(it => -it),
    ];
    return [0, 1, 2, 3].flatMap(column => rows.map(row => row[column]));
  }

  // How many voxels a pixel has at a distance of one voxel.
  get pixel() {
    return 2 / FOCAL / Math.min(this.canvas.clientWidth, this.canvas.clientHeight);
  }

  // The way into the picture at a pixel: where it starts, and its direction.
  wayTo(x, y) {
    const {right, up, back, eye} = this.axes();
    const across = (x - this.canvas.clientWidth / 2) * this.pixel;
    const along = (this.canvas.clientHeight / 2 - y) * this.pixel;
    return {start: eye, way: back.map((it, n) => right[n] * across + up[n] * along - it)};
  }

  turn(dx, dy) {
    this.around -= 0.4 * dx;
    this.above = Math.min(Math.max(this.above + 0.4 * dy, -STEEPEST), STEEPEST);
  }

  shift(dx, dy) {
    const {right, up} = this.axes(), size = this.far * this.pixel;
    this.at = this.at.map((it, n) => it + (up[n] * dy - right[n] * dx) * size);
  }

  // Comes nearer by a factor, towards what stands on the way to a pixel at this part of it, or
  // towards what is looked at.
  nearer(factor, {start, way}, part = this.far) {
    const far = Math.min(Math.max(this.far * factor, 2), 20 * this.radius);
    const share = 1 - far / this.far;
    this.at = this.at.map((it, n) => it + share * (start[n] + part * way[n] - it));
    this.far = far;
  }
}
