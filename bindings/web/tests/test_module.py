"""The module beyond what it answers: its memory, its ends, its worker, its types."""

import os
import shutil
import subprocess
import sys
import tempfile
import unittest
from pathlib import Path

import engines

# A use of the types, with faults that tsc has to find.
TYPED = """
import {load, Blocks, Event, Refused, Rule} from "./octofix.js";
import {start} from "./octofix-worker.js";

export async function use(bytes: Uint8Array): Promise<number> {
  const {OccMap, ray} = await load("octofix.wasm", {memory: 1e9});
  const map = OccMap.fromBt(bytes, {maxGroups: 1000});
  const {hits} = map.scan([[1, 2, 3]], [0, 0, 1], {range: 3, quaternion: [1, 0, 0, 0]});
  map.edit(new Float32Array(3), Event.SET, 850, {lazy: true});
  map.keepBox([0, 0, 0], [1, 1, 1]);
  map.merge(map, Rule.FIRST, [3, -5, 1]);
  const leaves: Blocks = map.leaves("free", {low: [0, 0, 0], high: [1, 1, 1]});
  const keys: Uint16Array = ray(0.1, [0, 0, 0], [1, 0, 0]);
  const remote = await (await start()).open(bytes);
  await remote.keepBox([0, 0, 0], [1, 1, 1]);
  await remote.merge(remote, Rule.LEAST, new Int32Array(3));
  const values: Int32Array = await remote.get([[1, 2, 3]]);
  const edge: number = await remote.resolution;
  try { map.close(); } catch (why) { if (why instanceof Refused) return why.code; }
  return hits + leaves.length + keys.length + values.length + edge;
}
"""
WRONG = 'import {load} from "./octofix.js";\nload().then(it => new it.OccMap("0.1").scan(5));\n'


class Module(unittest.TestCase):
    def setUp(self):
        room = tempfile.TemporaryDirectory()
        self.addCleanup(room.cleanup)
        self.folder = Path(room.name)
        shutil.copy(os.environ["OCTOFIX_WASM"], self.folder / "octofix.wasm")

    @unittest.skipUnless(engines.engines(), "neither Node from 20 on nor chromium is here")
    def test_in_each_engine(self):
        for name, kind in engines.engines().items():
            with self.subTest(name):
                engine = kind(self.folder)
                self.addCleanup(engine.close)
                found = engine.ask("tests/module.mjs", "run")
                self.assertEqual(found["faults"], {})
                self.assertGreater(found["count"], 9)

    def test_a_start_that_waits_for_itself(self):
        """It is ended, and another one is made; one that works is let be."""
        first = self.folder / "first"
        script = f"[ -e {first} ] || {{ : >{first}; exec sleep 60; }}; echo 7; exit 3"
        ran = engines.run_started(["sh", "-c", script], idle=0.5)
        self.assertEqual((ran.returncode, ran.stdout), (3, "7\n"))
        busy = "import time; [0 for _ in iter(lambda: time.thread_time() < 2, False)]; print(8)"
        ran = engines.run_started([sys.executable, "-c", busy], idle=1.5)
        self.assertEqual((ran.returncode, ran.stdout), (0, "8\n"))
        with self.assertRaisesRegex(AssertionError, "in each of 3 starts"):
            engines.run_started(["sleep", "60"], idle=0.2)

    @unittest.skipUnless(shutil.which("tsc"), "tsc is not here (Debian has it as node-typescript)")
    def test_types(self):
        for it in engines.WEB.glob("*.d.ts"):
            shutil.copy(it, self.folder)
        for name, text, is_right in (("right", TYPED, True), ("wrong", WRONG, False)):
            (self.folder / f"{name}.ts").write_text(text)
            words = "--strict --noEmit --target es2022 --module es2022 --lib es2022,dom".split()
            ran = subprocess.run(
                ["tsc", *words, self.folder / f"{name}.ts"], capture_output=True, text=True
            )
            self.assertEqual(ran.returncode == 0, is_right, ran.stdout)


if __name__ == "__main__":
    unittest.main()
