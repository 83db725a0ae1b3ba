// Mouse, fingers and keys.

const KEY_STEP = 20;                    // pixels
const KEYS = {
  ArrowLeft: [-KEY_STEP, 0], ArrowRight: [KEY_STEP, 0],
  ArrowUp: [0, -KEY_STEP], ArrowDown: [0, KEY_STEP],
};
const TAP = 5;                          // pixels that a finger may shake
const BY_PIXELS = 0.0012, BY_LINES = 0.04, BY_PINCH = 0.01;

export class Hands {
  constructor(viewer) {
    Object.assign(this, {viewer, canvas: viewer.canvas, fingers: new Map()});
    this.listen({
      pointerdown: it => this.down(it),
      pointermove: it => this.moved(it),
      pointerup: it => this.up(it),
      pointercancel: it => this.fingers.delete(it.pointerId),
      contextmenu: it => it.preventDefault(),
      wheel: it => this.wheel(it),
      dblclick: it => viewer.lookAt(viewer.pick(it.offsetX, it.offsetY)),
      keydown: it => this.key(it),
    });
  }

  listen(handlers) {
    for (const [name, handler] of Object.entries(handlers))
      this.canvas.addEventListener(name, handler, {passive: false});
  }

  down(event) {
    this.canvas.setPointerCapture(event.pointerId);
    const isShift = event.button !== 0 || event.shiftKey;
    this.fingers.set(event.pointerId, {x: event.offsetX, y: event.offsetY, moved: 0, isShift});
  }

  moved(event) {
    const finger = this.fingers.get(event.pointerId);
    if (!finger) return;
    const x = event.offsetX, y = event.offsetY, dx = x - finger.x, dy = y - finger.y;
    const other = [...this.fingers.values()].find(it => it !== finger);
    if (other) this.pinch(finger, other, x, y);
    else if (finger.isShift) this.viewer.camera.shift(dx, dy);
    else this.viewer.camera.turn(dx, dy);
    Object.assign(finger, {x, y, moved: finger.moved + Math.abs(dx) + Math.abs(dy)});
    this.viewer.move();
  }

  // One of two fingers goes to a place.
  pinch(finger, other, x, y) {
    const before = Math.hypot(finger.x - other.x, finger.y - other.y) || 1;
    const after = Math.hypot(x - other.x, y - other.y) || 1;
    this.viewer.camera.shift((x - finger.x) / 2, (y - finger.y) / 2);
    this.viewer.nearer(before / after, (x + other.x) / 2, (y + other.y) / 2);
    other.moved += TAP;                 // (so that no tap is left of it)
  }

  up(event) {
    const finger = this.fingers.get(event.pointerId);
    this.fingers.delete(event.pointerId);
    if (finger && finger.moved < TAP) this.viewer.tell(event.offsetX, event.offsetY);
  }

  wheel(event) {
    event.preventDefault();
    // (two fingers on a touchpad come as a wheel with Ctrl)
    const step = event.ctrlKey ? BY_PINCH : event.deltaMode ? BY_LINES : BY_PIXELS;
    this.viewer.nearer(Math.exp(event.deltaY * step), event.offsetX, event.offsetY);
  }

  key(event) {
    if (event.ctrlKey || event.metaKey || event.altKey || !this.done(event)) return;
    event.preventDefault();
  }

  // Does what a key asks for, and answers whether it asks for anything.
  done({key, shiftKey}) {
    const {viewer, canvas} = this, {camera, slice} = viewer;
    const middle = [canvas.clientWidth / 2, canvas.clientHeight / 2];
    if (key in KEYS) {
      if (shiftKey) camera.shift(...KEYS[key]);
      else camera.turn(...KEYS[key]);
      viewer.move();
    } else if (key === "+" || key === "=") viewer.nearer(0.8, ...middle);
    else if (key === "-") viewer.nearer(1.25, ...middle);
    else if (key === "PageUp") viewer.cut("high", slice.high + 1);
    else if (key === "PageDown") viewer.cut("high", slice.high - 1);
    else if (key === "Home") viewer.look(235, 35);
    else if (key === "Enter") viewer.tell(...middle);
    else return false;
    return true;
  }
}
