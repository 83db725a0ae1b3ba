"""The module beside the native library: random calls, whose answers are the same to the byte."""

import json
import os
import shutil
import tempfile
import unittest
from pathlib import Path

import calls
import engines

SEED, COUNT = 8, 5000


@unittest.skipUnless(engines.engines(), "neither Node from 20 on nor chromium is here")
class Beside(unittest.TestCase):
    @classmethod
    def setUpClass(cls):
        room = tempfile.TemporaryDirectory()
        cls.addClassCleanup(room.cleanup)
        cls.folder = Path(room.name)
        shutil.copy(os.environ["OCTOFIX_WASM"], cls.folder / "octofix.wasm")
        cls.calls = calls.Calls(SEED, COUNT)
        cls.calls.write(cls.folder)

    def answers(self, name):
        engine = engines.engines()[name](self.folder)
        self.addCleanup(engine.close)
        return engine.ask("tests/calls.mjs", "compare")

    def test_answers_are_the_same(self):
        for name in engines.engines():
            with self.subTest(name):
                found = self.answers(name)
                self.assertEqual(found["first"], [])
                self.assertEqual(found["calls"], len(self.calls.rows))
                self.assertGreaterEqual(found["calls"], COUNT)
                self.assertGreater(found["refused"], COUNT // 20)

    def test_another_byte_is_told(self):
        """An answer with another sum is told as different."""
        file = self.folder / "calls.json"
        rows = json.loads(file.read_text())
        first = next(it for it in rows if it[0] == "toSnapshot")
        first[2] = first[2][:-1] + ("0" if first[2][-1] != "0" else "1")
        self.addCleanup(file.write_text, file.read_text())
        last = rows.index(first) + 1
        file.write_text(json.dumps(rows[:last]))
        found = self.answers(next(iter(engines.engines())))
        self.assertEqual((found["calls"], found["differ"]), (last, 1))


if __name__ == "__main__":
    unittest.main()
