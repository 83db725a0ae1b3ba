// Puts the page of one map together. MAP is what it says of the map beside its tree.

import {readTree} from "./tree.js";
import {Supply} from "./supply.js";
import {Viewer} from "./viewer.js";
import {element} from "./panel.js";

async function start() {
  if (!window.DecompressionStream) throw Error("this browser is older than 2023");
  const tree = await readTree(element("tree").textContent, element("values").textContent);
  window.viewer = new Viewer(MAP, tree, new Supply(tree));
  window.viewer.weigh();
  const {canvas} = window.viewer;
  canvas.addEventListener("webglcontextlost", it => it.preventDefault());
  canvas.addEventListener("webglcontextrestored", () => location.reload());
}

start().catch(why => {
  element("told").textContent = `The map can't be shown: ${why.message}.`;
});
