// The panel: a legend, what is shown, and where the map is cut.

import {lowerFaceOf, middleOf} from "./telling.js";

const NARROW = 500;                     // pixels of a phone

export const element = id => document.getElementById(id);

export class Panel {
  constructor(viewer) {
    this.viewer = viewer;
    this.legend();
    for (const name in viewer.shown)
      element(name).addEventListener("change", () => {
        viewer.shown[name] = element(name).checked;
        viewer.changed();
      });
    for (const name of ["low", "high"])
      element(name).addEventListener("input", () =>
        viewer.cut(name, Number(element(name).value)));
    element("corner").addEventListener("click", () => viewer.look(235, 35));
    element("top").addEventListener("click", () => viewer.look(270, 90));
    Object.assign(element("panel"), {hidden: false, open: innerWidth > NARROW});
  }

  legend() {
    const {colours, occupied: [low, high], nanometres} = this.viewer;
    const stops = colours.map(it => `rgb(${it})`).join(",");
    element("colours").style.background = `linear-gradient(to right, ${stops})`;
    element("lowest-colour").textContent = `${middleOf(low, nanometres)} m`;
    if (high === low) return;
    element("highest-colour").textContent = `${middleOf(high, nanometres)} m`;
    element("middle-colour").textContent = `${middleOf((low + high) / 2, nanometres)} m`;
  }

  // Shows what the viewer shows.
  refresh() {
    const {shown, slice, low, high, nanometres} = this.viewer;
    for (const name in shown) element(name).checked = shown[name];
    Object.assign(element("low"), {min: low[2], max: high[2] - 1, value: slice.low});
    Object.assign(element("high"), {min: low[2] + 1, max: high[2], value: slice.high});
    for (const name of ["low", "high"])
      element(`${name}-text`).textContent = `${lowerFaceOf(slice[name], nanometres)} m`;
  }
}
