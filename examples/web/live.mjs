// A map that follows one which is being made: what changes there comes as events, and goes into a
// map of the page by `edit`.

import {Event, VoxelClass, load} from "./octofix.mjs";

const {OccMap} = await load();

export class Follower {
  constructor(resolution) {
    this.map = new OccMap(resolution);
    this.voxels = 0;
  }

  // Takes in a change set: eight bytes a voxel, its key and its class.
  take(text) {
    const bytes = Uint8Array.from(atob(text), it => it.charCodeAt(0));
    const rows = new Uint16Array(bytes.buffer), {min, max} = this.map.odds;
    const count = rows.length / 4, keys = new Uint16Array(3 * count);
    const events = new Uint8Array(count), numbers = new Int32Array(count);
    for (let row = 0; row < count; row++) {
      keys.set(rows.subarray(4 * row, 4 * row + 3), 3 * row);
      const kind = rows[4 * row + 3];
      events[row] = kind === VoxelClass.UNKNOWN ? Event.FORGET : Event.SET;
      numbers[row] = kind === VoxelClass.OCCUPIED ? max : min;
    }
    this.map.edit(this.map.centers(keys), events, numbers);
    this.voxels += count;
  }

  // Draws what each column of voxels shows.
  draw(canvas) {
    const box = this.map.extent();
    if (!box) return;
    const [low, high] = [box.low.map(it => it + 1e-6), box.high.map(it => it - 1e-6)];
    const {cells, rows, columns} = this.map.grid(low, high);
    const colours = new Uint32Array(cells.length);
    for (let at = 0; at < cells.length; at++) {
      const row = rows - 1 - Math.floor(at / columns), place = row * columns + at % columns;
      colours[place] = {100: 0xff282828, 0: 0xffffffff, "-1": 0xffc8c8c8}[cells[at]];
    }
    Object.assign(canvas, {width: columns, height: rows});
    const image = new ImageData(new Uint8ClampedArray(colours.buffer), columns, rows);
    canvas.getContext("2d").putImageData(image, 0, 0);
  }
}

// Follows the map of the server that the page comes from, and says when there is no more.
export function follow(follower, canvas, told) {
  return new Promise((done, fail) => {
    const source = new EventSource("changes");
    source.onmessage = ({data}) => {
      follower.take(data);
      follower.draw(canvas);
      told.textContent = `${follower.voxels.toLocaleString("en")} changes`;
    };
    source.addEventListener("end", () => {
      source.close();
      told.textContent += ", and no more come";
      done(follower);
    });
    source.onerror = () => {
      source.close();
      told.textContent += ", and the server has gone";
      fail(new Error("the server has gone"));
    };
  });
}
