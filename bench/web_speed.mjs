// What bench/web_speed.py measures of the module, in Node: milliseconds of processor time, by name.

import {readFileSync} from "node:fs";
import {load} from "../bindings/web/octofix.mjs";

const doublesOf = name => new Float64Array(readFileSync(name).buffer.slice());

function least(call, rounds) {
  let found = Infinity, answer;
  for (let round = 0; round < rounds; round++) {
    answer?.close?.();
    const start = process.cpuUsage();
    answer = call();
    const {user, system} = process.cpuUsage(start);
    found = Math.min(found, (user + system) / 1000);
  }
  return {found, answer};
}

export async function measure(folder, module, edge, places, rounds) {
  const {OccMap} = await load(readFileSync(module));
  const [points, asked] = ["points", "asked"].map(it => doublesOf(`${folder}/${it}`));
  const bytes = new Uint8Array(readFileSync(`${folder}/map.bt`));
  const each = points.length / places.length, middle = asked.length / 2, times = {};
  const take = (name, call) => {
    const {found, answer} = least(call, rounds);
    times[name] = found;
    return answer;
  };
  const world = take("scans", () => {
    const map = new OccMap(edge);
    places.forEach((it, n) => map.scanFrom(it, points.subarray(each * n, each * (n + 1))));
    return map;
  });
  take("values", () => world.get(asked));
  take("casts", () => world.cast(asked.subarray(0, middle), asked.subarray(middle),
    {ignoreUnknown: true}));
  take("leaves", () => world.leaves("known"));
  take("open", () => OccMap.fromBt(bytes));
  return times;
}
