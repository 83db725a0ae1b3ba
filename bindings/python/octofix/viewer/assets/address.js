// What is seen, in the page's address after #, so that it is there again after a reload.

export function addressOf({camera, shown, slice}) {
  const numbers = [camera.around, camera.above, camera.far, ...camera.at];
  const view = numbers.map(it => Number(it.toFixed(2))).join(",");
  const show = Object.keys(shown).filter(it => shown[it]).join(",");
  return `#view=${view}&show=${show}&cut=${slice.low},${slice.high}`;
}

// Takes over what an address says, where it fits the map.
export function recall(viewer, address) {
  const words = new URLSearchParams(address.slice(1));
  const numbers = name => (words.get(name) || "").split(",").map(Number);
  const [around, above, far, ...at] = numbers("view");
  if ([around, above, far, ...at].every(Number.isFinite) && at.length === 3 && far > 0)
    Object.assign(viewer.camera, {around, above, far, at});
  const [low, high] = numbers("cut");
  if (low >= viewer.low[2] && high > low && high <= viewer.high[2])
    Object.assign(viewer.slice, {low, high});
  if (words.has("show"))
    for (const name in viewer.shown)
      viewer.shown[name] = words.get("show").split(",").includes(name);
}
