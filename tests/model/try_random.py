#!/usr/bin/env python3
"""Makes random scripts and files, and compares what the program makes of them with what the model
does: what is written, the status, and the files that stand afterwards.

    tests/model/try_random.py FIRST LAST [--program FILE] [--without COMMAND,..]

makes one session for each seed from FIRST to LAST. Prints the first that ends otherwise, and then
ends with 1.
"""
import os
import random
import subprocess
import sys
import tempfile

sys.dont_write_bytecode = True

import scripts
import tasks

sys.path.append(os.path.join(os.path.dirname(os.path.abspath(__file__)), "../../tools/check"))
from options import parser, program_of  # noqa: E402

ODDS = ["", "", "", "--hit 500", "--min -100 --thr -50", "--max 900 --thr 900"]


def options(draw, size):
    """Words after `session 0.1`."""
    groups = f"--max-groups {draw.randint(16, 90)}"
    cells = f"--max-cells {draw.randint(1, 20)}"
    most = f"--max-bytes {draw.randint(0, size + 2)}"
    limits = draw.choice(["", "", "", groups, cells, most])
    return f"{limits} {draw.choice(ODDS)}".split()


def came(program, words, data, files):
    """What the program does: its status, what it wrote, and its files."""
    with tempfile.TemporaryDirectory() as folder:
        for name, text in files.items():
            with open(os.path.join(folder, name), "wb") as file:
                file.write(text)
        call = [os.path.abspath(program), *words]
        pipes = {"stdout": subprocess.PIPE, "stderr": subprocess.DEVNULL}
        done = subprocess.run(call, input=data, cwd=folder, check=False, **pipes)
        found = {}
        for name in os.listdir(folder):
            with open(os.path.join(folder, name), "rb") as file:
                found[name] = file.read()
    return done.returncode, done.stdout, found


def wanted(words, data, files):
    files = dict(files)
    status, text = tasks.run(words, data, files)
    return status, text, files


def changed(draw, text):
    """The file cut, with a byte changed, or as it is."""
    at = draw.randrange(len(text))
    return draw.choice([text, text[:at], text[:at] + bytes([draw.randrange(256)]) + text[at + 1 :]])


def runs(draw, without):
    """Some runs: the words, the input and the files of each."""
    data = scripts.script(draw, without)
    words = ["session", "0.1", *options(draw, len(data))]
    yield words, data, {}
    _, _, files = wanted(words, data, {})
    if not without & {"save", "load"}:
        files = {name: changed(draw, text) for name, text in files.items()}
        yield ["session", draw.choice(["0.1", "0.1", "0.2"])], scripts.script(draw, without), files
    if "build" not in without:
        yield ["build", *words[1:]], data, {}
    _, text = tasks.run(["build", "0.1"], data, {})
    between = [[task, *scripts.corners(draw).split()] for task in ("frontier", "project")]
    for task in (["convert"], ["inspect"], *between, ["vrml"]):
        yield task, changed(draw, text), {}
    if "build" not in without:
        _, other = tasks.run(["build", "0.1"], scripts.script(draw, without), {})
        yield from pair_runs(draw, text, other)


def pair_runs(draw, first, second):
    """Runs over two files, one of which is changed now and then, or isn't there."""
    files = {"a": changed(draw, first) if draw.random() < 0.2 else first, "b": second}
    names = draw.choice([("a", "b"), ("b", "a"), ("a", "a"), ("b", "c")])
    yield ["merge", draw.choice(["greatest", "least", "first"]), *names], b"", files
    ends = [sorted(draw.choices(range(-9, 10), k=2)) for _ in range(3)]
    low, high = ([str(pair[end] / 10) for pair in ends] for end in (0, 1))
    yield ["table", *names, *low, *high], b"", files


def main():
    words = parser(__doc__)
    words.add_argument("first", type=int)
    words.add_argument("last", type=int)
    words.add_argument("--without", default="")
    given = words.parse_args()
    if given.last < given.first:
        words.error("there is no seed from FIRST to LAST")
    program = program_of(given)
    for seed in range(given.first, given.last + 1):
        for call, data, files in runs(random.Random(seed), set(given.without.split(","))):
            right, found = wanted(call, data, files), came(program, call, data, files)
            if right != found:
                print(" ".join(call), data, files, "# wanted:", right, "# came:", found, sep="\n")
                return f"the run of seed {seed}, above, ends otherwise"
    return 0


if __name__ == "__main__":
    sys.exit(main())
