#!/usr/bin/env python3
"""Tries the tools at random, 20,000 times or another number of them:

    tests/tools_trials.py damaged [--library FOLDER] [--from SEED] [MANY]
    tests/tools_trials.py ended [--library FOLDER] [--from SEED] [MANY]

damaged: files of all kinds that they read are damaged. Each run has to end in one line, with a
status of docs/TOOLS.md, and to leave an old file as it was. Bags are among them where rosbag is
there, and .ot files where octofix-ot is.

ended: runs are interrupted, have no room on their disk, or write the same as another one. Each
output has to be old or whole, and nothing else may be left.

Needs numpy. Ends with 1 where something is wrong, and names its seed.
"""
import os
import subprocess
import sys
from pathlib import Path

ROOT = Path(__file__).resolve().parents[1]
sys.path.append(str(ROOT / "tools/check"))
import options  # noqa: E402

PACKAGE = ROOT / "bindings/python"
TESTS = {"damaged": "test_mutations.py", "ended": "test_trials.py"}


def main(given):
    library = Path(options.library_of(given), "liboctofix.so.1").resolve()
    places = {
        "OCTOFIX_LIBRARY": str(library),
        "OCTOFIX_TRIALS": str(given.many),
        "OCTOFIX_TRIALS_FROM": str(given.seed),
        "PYTHONPATH": f"{PACKAGE}:{os.environ.get('PYTHONPATH', '')}",
    }
    tests = ["-s", str(PACKAGE / "tests_tools"), "-p", TESTS[given.what]]
    subprocess.run([sys.executable, PACKAGE / "octofix_compile.py"], check=True)
    call = [sys.executable, "-W", "error", "-m", "unittest", "discover", *tests]
    return subprocess.run(call, env=os.environ | places).returncode


if __name__ == "__main__":
    parser = options.parser(__doc__)
    parser.add_argument("what", choices=TESTS)
    parser.add_argument("many", nargs="?", type=int, default=20000, metavar="MANY")
    parser.add_argument("--from", dest="seed", type=int, default=0, metavar="SEED")
    sys.exit(main(parser.parse_intermixed_args()) and 1)
