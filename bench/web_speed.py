#!/usr/bin/env python3
"""Measures calls of the module for browsers in Node, beside the native library's by Python, in
processor time: how many times as long each takes. Fails where one takes longer than it may.

    bench/web_speed.py [--library FOLDER]

FOLDER has liboctofix.so.1 and octofix.wasm of one module. Needs numpy, Python.h and
Node from 20 on.
"""
import json
import os
import subprocess
import sys
import tempfile
import time
from pathlib import Path

import numpy as np

ROOT = Path(__file__).resolve().parent.parent
sys.path[:0] = [
    str(ROOT / it) for it in ("bindings/python", "bindings/web/tests", "tools/check", "bench")
]

import engines
import make_street
import octofix
import octofix_compile
import options

EDGE, COLUMNS, PLACES, ASKED, ROUNDS = 0.1, 300, 8, 400_000, 3
MOST = 2.5  # times as long


def least(call):
    """The least milliseconds of a call, and its answer."""
    found = []
    for _ in range(ROUNDS):
        before = time.thread_time()
        answer = call()
        found.append(1000 * (time.thread_time() - before))
    return min(found), answer


def native(places, clouds, asked):
    times = {}

    def take(name, call):
        times[name], answer = least(call)
        return answer

    def scans():
        world = octofix.Map(EDGE)
        for at, points in zip(places, clouds):
            world.scan_from(at, points)
        return world

    world, half = take("scans", scans), len(asked) // 2
    take("values", lambda: world.get(asked))
    take("casts", lambda: world.cast(asked[:half], asked[half:], True))
    take("leaves", lambda: world.leaves(kind="known"))
    data = world.to_bt()
    take("open", lambda: octofix.Map.from_bt(data))
    return times, data


def in_node(folder, module, places):
    script = (ROOT / "bench/web_speed.mjs").as_uri()
    words = ", ".join(json.dumps(it) for it in (folder, str(module), EDGE, places, ROUNDS))
    text = f"import({json.dumps(script)}).then(it => it.measure({words}))"
    text += ".then(it => console.log(JSON.stringify(it)))"
    ran = subprocess.run([*engines.node(), "-e", text], check=True, capture_output=True, text=True)
    return json.loads(ran.stdout)


def main():
    library = options.library_of(options.parser(__doc__).parse_args())
    os.environ["OCTOFIX_LIBRARY"] = str(Path(library, "liboctofix.so.1"))
    octofix_compile.make_in_place()
    draw = np.random.default_rng(1)
    places = [[make_street.STEP * it, 0, make_street.HEIGHT] for it in range(PLACES)]
    found = [make_street.cloud(it, make_street.boxes(), COLUMNS) for it in range(PLACES)]
    # (as many of each, and whole doubles)
    each = min(map(len, found))
    clouds = [it[:each].astype(float) + at for it, at in zip(found, places)]
    asked = draw.uniform((-10, -10, 0), (30, 10, 6), (ASKED, 3))
    with tempfile.TemporaryDirectory() as folder:
        times, data = native(places, clouds, asked)
        Path(folder, "map.bt").write_bytes(data)
        np.concatenate(clouds).tofile(Path(folder, "points"))
        asked.tofile(Path(folder, "asked"))
        theirs = in_node(folder, Path(library, "octofix.wasm"), places)
    for name, took in times.items():
        print(f"{name}: {theirs[name]:.4g} ms in Node, {theirs[name] / took:.3g} of {took:.4g} ms")
    sys.exit(any(theirs[name] > MOST * took for name, took in times.items()))


if __name__ == "__main__":
    if engines.node() is None:
        sys.exit("no Node from 20 on is here")
    main()
