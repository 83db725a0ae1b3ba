#!/usr/bin/env python3
"""Refuses a map one request for memory, the first, the second and so on, while it is edited,
scanned, loaded and restored under a mark (refused_map.rt.in), and says whether each left all that a
caller can see as it was: values, the value at the root, the stale flag, counts, changes since the
mark, log-odds and the update box. What was refused is asked for again, and is done then.

    tests/refused_map.py [LAST]

goes up to request LAST (400), on a copy of the crates, by `rt try`, which proves nothing, and takes
some two minutes. Ends with 1 where a refusal left something else, or where there are more requests.
"""
import os
import re
import shutil
import subprocess
import sys
import tempfile

HERE = os.path.dirname(os.path.abspath(__file__))
ROOT = os.path.dirname(HERE)

TESTS = """
#[test]
fn meets_{number}(rt: HostRuntime) -> Result<(), Fail> {{
    assert_eq!(rt; go_on_after(&rt, rt.alloc(), {before})?, 1);
    Ok(())
}}
"""


def trial(last):
    """The source of the tests: of each request, after as many others as make it the last one."""
    with open(os.path.join(HERE, "refused_map.rt.in"), encoding="utf-8") as file:
        text = file.read()
    numbers = range(1, last + 1)
    return text + "".join(TESTS.format(number=it, before=last - it) for it in numbers)


def run(last):
    """What `rt try` says of the tests, the request of number `last` of each of which is refused."""
    with tempfile.TemporaryDirectory() as folder:
        left = shutil.ignore_patterns("out", "must-fail")
        shutil.copytree(os.path.join(ROOT, "crates"), os.path.join(folder, "crates"), ignore=left)
        with open(os.path.join(ROOT, "crates.txt")) as file:
            crates = file.read().replace("oct_map_tests:", "oct_map_tests: oct_bt oct_query")
        with open(os.path.join(folder, "crates.txt"), "w") as file:
            file.write(crates)
        tests = os.path.join(folder, "crates", "oct_map_tests")
        shutil.rmtree(os.path.join(tests, "proofs"))
        with open(os.path.join(tests, "src", "tests.rt"), "w") as file:
            file.write(trial(last))
        call = ["rt", "try", "--test", "--fail-alloc", str(last)]
        done = subprocess.run(call, cwd=tests, capture_output=True, text=True, check=False)
        return done.stdout + done.stderr


def main():
    last = int(sys.argv[1]) if len(sys.argv) > 1 else 400
    said = run(last)
    found = dict(re.findall(r"^test \S+::meets_(\d+) \.\.\. (\w+)", said, re.M))
    met = sorted(int(it) for it, ends in found.items() if ends == "ok")
    unmet = len(re.findall(r"^ *left: 0\n *right: 1$", said, re.M))
    if met != list(range(1, len(met) + 1)) or len(met) + unmet != last:
        print(said[-4000:], "a refusal left something else", sep="\n")
        return 1
    print(f"{len(met)} requests refused one by one: nothing was lost")
    if not unmet:
        print("there are more requests")
        return 1
    return 0


if __name__ == "__main__":
    sys.exit(main())
