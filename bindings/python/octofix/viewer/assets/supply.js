// Where the faces of a map come from: here, at once, from its tree.

import {OCCUPIED, FREE, UNKNOWN} from "./tree.js";
import {Squares, findFaces, layerOf} from "./faces.js";

export class Supply {
  constructor(tree) {
    this.tree = tree;
  }

  // Has the lists of a class's faces behind which one of these classes lies taken.
  faces(kind, behind, take) {
    take(findFaces(this.tree, kind, behind));
  }

  // Has a list of a class's blocks at each of these heights taken, an empty one where it is none.
  layers(kind, heights, take) {
    take(heights.map(it => it === undefined ? new Squares() : layerOf(this.tree, kind, it)));
  }

  // Has the faces of occupied blocks that are few enough taken.
  coarse(most, take) {
    take(coarseFaces(this.tree, most));
  }
}

// The faces of occupied blocks, so great that there are at most so many.
export function coarseFaces(tree, most) {
  for (let depth = tree.ends.length - 1; depth > 0; depth--) {
    const faces = findFaces(tree.coarse(depth), OCCUPIED, [UNKNOWN, FREE]);
    if (depth === 1 || faces.reduce((sum, it) => sum + it.length, 0) < most) return faces;
  }
  return findFaces(tree, OCCUPIED, [UNKNOWN, FREE]);
}
