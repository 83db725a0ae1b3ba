"""The examples are typed as strictly as mypy can ask."""
import importlib.util
import os
import subprocess
import sys
import tempfile
import unittest
from pathlib import Path

PACKAGE = Path(__file__).resolve().parents[1]


class Types(unittest.TestCase):
    def test_the_examples(self):
        if importlib.util.find_spec("mypy") is None:
            self.skipTest("mypy isn't here (in Debian mypy)")
        examples = sorted(map(str, (PACKAGE / "examples").glob("*.py")))
        with tempfile.TemporaryDirectory() as cache:
            words = ["--strict", "--follow-imports=silent", f"--cache-dir={cache}", *examples]
            done = subprocess.run(
                [sys.executable, "-m", "mypy", *words], capture_output=True, text=True,
                env={**os.environ, "MYPYPATH": str(PACKAGE), "PYTHONPATH": ""},
            )  # fmt: skip
        said = f"Success: no issues found in {len(examples)} source files\n"
        self.assertEqual(done.stdout, said, done.stderr)


if __name__ == "__main__":
    unittest.main()
