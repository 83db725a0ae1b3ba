// The page: files are dropped or chosen, opened in the worker, and shown.

import {ORIGIN, Tree, bytesOf} from "./tree.js";
import {element} from "./panel.js";
import {Caller} from "../octofix-calls.mjs";
import {Inspector, count, volume} from "./inspector.js";
import {RemoteSupply} from "./remote.js";
import {NAMES} from "./telling.js";
import {give, pictureOf} from "./files.js";

const MOST_BYTES = 2 ** 30;             // of a file that the library takes
const GIGABYTE = 2 ** 30;
// The colours of what is occupied in one of two maps alone, or free in the other.
const APART = {first: [214, 57, 57], second: [44, 120, 220], differing: [240, 147, 43]};
const FORMS = {bt: "bt", snapshot: "snap", ply: "ply"};

class Page {
  constructor() {
    this.maps = [];
    this.pristine = element("shown").innerHTML;
    this.queue = this.start();
  }

  // Starts the worker, which is given half of the memory that the machine has, where it tells.
  async start() {
    const script = new Blob([element("desk").textContent], {type: "text/javascript"});
    const worker = new Worker(URL.createObjectURL(script));
    this.desk = new Caller(worker);
    worker.addEventListener("error", it => this.failed(it.message || "it ran out of memory"));
    const memory = navigator.deviceMemory ? navigator.deviceMemory * GIGABYTE / 2 : undefined;
    try {
      await this.desk.call("load", bytesOf(element("wasm").textContent), memory);
    } catch (why) {
      this.say(`This browser can't run the library: ${why.message}.`);
    }
  }

  // (what it had is gone, and the next file starts another one)
  failed(why) {
    this.desk.end(new Error(why));
    this.say(`The worker of this page ended: ${why}.`);
    this.leave();
    this.maps = [];
    this.queue = this.start();
  }

  say(text) {
    element("fault").textContent = text;
  }

  // The share of a job that is done, or that it failed.
  progress(share, why) {
    if (why) this.say(`The map can't be drawn: ${why.message}.`);
    else if (share === undefined) element("bar").removeAttribute("value");
    else element("bar").value = share;
    element("bar").hidden = share === 1;
  }

  // Opens files, one after another, and shows the last one that could be opened.
  take(files) {
    for (const file of files)
      this.next(() => this.open(file), `${file.name} can't be shown`);
  }

  // Does something once what was asked before is done, with the bar; `said` begins what is said
  // where it fails.
  next(work, said) {
    this.queue = this.queue.then(async () => {
      this.progress(undefined);
      try {
        await work();
      } catch (why) {
        this.say(`${said}: ${why.message}.`);
      }
      this.progress(1);
    });
  }

  async open(file) {
    let map;
    try {
      map = await this.read(file);
    } catch (why) {
      this.say(`${file.name} can't be opened: ${why.message}.`);
      return;
    }
    this.say("");
    this.maps.push(map);
    await this.show(map);
  }

  async read(file) {
    if (file.size > MOST_BYTES)
      throw new Error(`it has ${count(file.size)} bytes, and a map has at most 2^30`);
    const began = performance.now(), bytes = new Uint8Array(await file.arrayBuffer());
    const about = await this.desk.call("open", bytes);
    return {name: file.name, took: performance.now() - began, ...about};
  }

  leave() {
    window.viewer?.end();
    window.viewer = undefined;
    element("shown").innerHTML = this.pristine;
  }

  // Shows a map in place of what is shown.
  async show(map) {
    const {nodes, ends} = await this.desk.call("occupiedTree", map.number);
    this.leave();
    this.draw(aboutOf([map]), new Tree(nodes, ends), map.number, [map]);
    this.tellFacts(map);
    this.finish(map, window.viewer).catch(why =>
      this.say(`${map.name} can't be counted: ${why.message}.`));
  }

  // Once all is drawn: how long that takes, and what takes a look at all that is known.
  async finish(map, viewer) {
    await viewer.supply.done();
    if (viewer !== window.viewer) return;
    viewer.weigh();
    if (map.free === undefined) Object.assign(map, await this.desk.call("counts", map.number));
    if (viewer === window.viewer) this.tellFacts(map);
  }

  draw(about, tree, number, maps) {
    const supply = new RemoteSupply(this.desk, number, (...it) => this.progress(...it));
    const numbers = maps.map(it => it.number);
    window.viewer = new Inspector(about, tree, supply, this.desk, numbers);
    element("drop").hidden = true;
    element("title").textContent = maps.map(it => it.name).join(" beside ");
    this.listMaps(maps);
    this.listen(maps);
  }

  // Shows a map and another one side by side.
  async compare(first, second) {
    const {table, numbers} = await this.desk.call("compare", first.number, second.number);
    const {nodes, ends} = await this.desk.call("occupiedTree", numbers.both);
    this.leave();
    this.draw(aboutOf([first, second]), new Tree(nodes, ends), numbers.both, [first, second]);
    for (const [name, colour] of Object.entries(APART))
      window.viewer.painter.drawApart(new RemoteSupply(this.desk, numbers[name], () => {}), colour);
    this.tellTable(table, first);
  }

  listMaps([shown, other]) {
    const options = (select, chosen, none) => {
      element(select).replaceChildren(...none, ...this.maps.map((it, n) =>
        new Option(it.name, n, false, it === chosen)));
    };
    options("maps", shown, []);
    options("other", other, [new Option("nothing", -1)]);
    element("several").hidden = this.maps.length < 2;
  }

  listen([shown, other]) {
    const chosen = id => this.maps[Number(element(id).value)];
    const show = map => this.next(() => this.show(map), `${map.name} can't be shown`);
    element("maps").onchange = () => show(chosen("maps"));
    element("other").onchange = () => {
      const beside = chosen("other");
      if (!beside) return show(shown);
      return this.next(() => this.compare(shown, beside),
        `${shown.name} and ${beside.name} can't be compared`);
    };
    for (const form in FORMS)
      element(form).onclick = () => this.save(shown, form);
    element("grid").onclick = () => this.saveGrid(shown);
    for (const id of ["free", "frontier", "files"]) element(id).disabled = Boolean(other);
  }

  async save(map, form) {
    const content = await this.desk.call("file", map.number, form);
    give(content, `${stemOf(map.name)}.${FORMS[form]}`);
  }

  async saveGrid(map) {
    const {low, high} = window.viewer.slice;
    try {
      give(await pictureOf(await this.desk.call("grid", map.number, low, high - 1)),
        `${stemOf(map.name)}.png`);
    } catch (why) {
      this.say(`The grid can't be made: ${why.message}.`);
    }
  }

  tellFacts(map) {
    const {resolution} = map, voxels = number => number === undefined ? "is counted"
      : `${volume(number, resolution)} (${count(number)} voxels)`;
    const size = map.known?.high.map((it, n) => (it - map.known.low[n] + 1) * resolution);
    fill("facts", [
      ["edge of a voxel", `${resolution} m`], ["occupied", voxels(map.occupied)],
      ["free", voxels(map.free)],
      ["known box", size ? `${size.map(it => +it.toFixed(4)).join(" × ")} m` : "none"],
      ["nodes", map.nodes === undefined ? "are counted" : count(map.nodes)],
      ["memory", `${(map.memory / 2 ** 20).toFixed(1)} MB`],
      ["opened in", `${Math.round(map.took)} ms`],
    ]);
  }

  // How many voxels have which classes in two maps.
  tellTable(table, {resolution}) {
    const rows = [["first, second", "voxels"]];
    for (const one of [2, 1, 0])
      for (const other of [2, 1, 0])
        if (one || other)
          rows.push([`${NAMES[one]}, ${NAMES[other]}`,
            `${count(table[one][other])} (${volume(table[one][other], resolution)})`]);
    fill("facts", rows);
    element("colours-of-two").hidden = false;
  }
}

function fill(id, rows) {
  const table = element(id);
  table.replaceChildren();
  for (const texts of rows) {
    const row = table.insertRow();
    for (const text of texts) row.insertCell().textContent = text;
  }
}

const stemOf = name => name.replace(/\.(bt|snap)$/, "") || "map";

// What the viewer is told of maps that are shown together.
function aboutOf(maps) {
  const none = {low: [ORIGIN, ORIGIN, ORIGIN], high: [ORIGIN, ORIGIN, ORIGIN]};
  const known = hull(maps.map(it => it.known)) ?? none;
  const filled = hull(maps.map(it => it.filled)) ?? known;
  const [{nanometres, resolution}] = maps, hasValues = maps.map(it => it.hasValues);
  return {
    ...known, occupied: [filled.low[2], filled.high[2]], nanometres, resolution, hasValues,
    colours: COLOURS, brightness: BRIGHTNESS,
  };
}

// The least box around boxes.
function hull(boxes) {
  const there = boxes.filter(Boolean), ends = (name, end) =>
    [0, 1, 2].map(axis => end(...there.map(it => it[name][axis])));
  return there.length ? {low: ends("low", Math.min), high: ends("high", Math.max)} : undefined;
}

function listenForFiles(page) {
  const isOver = it => document.body.classList.toggle("over", it);
  addEventListener("dragover", it => {
    it.preventDefault();
    isOver(true);
  });
  addEventListener("dragleave", () => isOver(false));
  addEventListener("drop", it => {
    it.preventDefault();
    isOver(false);
    page.take(Array.from(it.dataTransfer.files));
  });
  for (const id of ["file", "more"])
    document.addEventListener("change", it => {
      if (it.target.id === id) page.take(Array.from(it.target.files));
    });
}

if (!window.DecompressionStream || !window.Worker)
  element("fault").textContent = "The page can't work: this browser is older than 2023.";
else {
  window.page = new Page();
  listenForFiles(window.page);
}
