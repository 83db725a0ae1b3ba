#!/usr/bin/env python3
"""Measures the tools of the Python package against their limits:

    bench/tools_speed.py [--program FILE] [--library FOLDER]

Prints, and ends with 1 where a limit isn't kept:

- 500 clouds of 2,000 points made a map, in seconds of processor time, in at most 1.5 times what a
  session takes for the same script;
- how long a cloud of 1,000,000 points takes to be read and placed, in each form: at most 2 s;
- the peak of memory beside the map's own: at most 100 MB.

Needs a Python with numpy.
"""
import os
import subprocess
import sys
import tempfile
from pathlib import Path

import numpy as np

ROOT = Path(__file__).resolve().parents[1]
sys.path.append(str(ROOT / "tools/check"))
import options  # noqa: E402

PACKAGE = ROOT / "bindings/python"
CLOUDS, POINTS, MANY = 500, 2_000, 1_000_000
RATIO, SECONDS, MEGABYTES = 1.5, 2.0, 100
# A cloud that is read and placed, and not mapped: its points lie in two voxels.
PLACED = """
import resource, sys, time
began = time.process_time()
from octofix._program import parser
from octofix.io.asked import scans_of
words = ["map", "--res", "1", "--quiet", "--pose", *"1 2 3 0.5 0.1 0.2 0.3".split(), "-o", "-"]
began = time.process_time()
points = sum(len(it.points) for it in scans_of(parser().parse_args([*words, sys.argv[1]])))
assert points == 1_000_000
print(time.process_time() - began)
"""


def run(*call, given=os.devnull):
    """The output of a command, its seconds of processor time, and its peak of memory in MB."""
    with open(given, "rb") as file:
        process = subprocess.Popen(list(map(str, call)), stdin=file, stdout=subprocess.PIPE)
        output = process.stdout.read()
        _, status, used = os.wait4(process.pid, 0)
    process.stdout.close()
    process.returncode = status
    if status:
        sys.exit(f"tools_speed: {call[0]} ended with the status {status}")
    return output, used.ru_utime + used.ru_stime, used.ru_maxrss / 1000


def octofix(*words):
    return run(sys.executable, "-m", "octofix", *words)


def many_clouds(program):
    """The seconds for all clouds, and those of a session over the same script."""
    random = np.random.default_rng(1)
    with open("poses.tum", "w") as poses:
        for number in range(CLOUDS):
            x, y = random.uniform(-5, 5, 2)
            poses.write(f"{number} {x:.3f} {y:.3f} 1 0 0 0 1\n")
            np.save(f"{number:03}.npy", random.normal(size=(POINTS, 3)) * (4, 4, 0.5))
    names = [f"{number:03}.npy" for number in range(CLOUDS)]
    words = ["map", "--res", "0.1", "--range", "8", "--quiet", "--poses", "poses.tum", *names]
    octofix(*words, "--script", "script.txt")
    _, ours, _ = octofix(*words, "-o", "map.bt")
    _, theirs, _ = run(program, "session", "0.1", given="script.txt")
    return ours, theirs


def large_clouds():
    """The names of files of one cloud in several forms."""
    points = (np.random.default_rng(2).normal(size=(MANY, 3)) * 10).astype(np.float32)
    np.save("large.npy", points)
    np.savetxt("large.xyz", points, "%.4f")
    np.concatenate([points, np.abs(points[:, :1])], axis=1).tofile("large.bin")
    fields = f"FIELDS x y z\nSIZE 4 4 4\nTYPE F F F\nCOUNT 1 1 1\nPOINTS {MANY}\n"
    head = f"VERSION 0.7\n{fields}DATA binary\n"
    Path("large.pcd").write_bytes(head.encode() + points.tobytes())
    axes = "".join(f"property float {it}\n" for it in "xyz")
    head = f"ply\nformat binary_little_endian 1.0\nelement vertex {MANY}\n{axes}end_header\n"
    Path("large.ply").write_bytes(head.encode() + points.tobytes())
    return ["large.npy", "large.pcd", "large.ply", "large.bin", "large.xyz"]


def main(folder, program):
    os.environ["OCTOFIX_LIBRARY"] = str(Path(folder, "liboctofix.so.1").resolve())
    subprocess.run([sys.executable, PACKAGE / "octofix_compile.py"], check=True)
    os.environ["PYTHONPATH"] = f"{PACKAGE}:{os.environ.get('PYTHONPATH', '')}"
    program, faults = Path(program).resolve(), 0
    with tempfile.TemporaryDirectory() as room:
        os.chdir(room)
        ours, theirs = many_clouds(program)
        faults += ours > RATIO * theirs
        times = f"{ours:.2f} s, {ours / theirs:.2f} times the session's {theirs:.2f} s"
        print(f"{CLOUDS} clouds of {POINTS} points: {times} (at most {RATIO})")
        _, _, idle = octofix("--version")
        for name in large_clouds():
            output, _, peak = run(sys.executable, "-c", PLACED, name)
            seconds = float(output)
            faults += seconds > SECONDS or peak > MEGABYTES
            print(f"{name}: {seconds:.2f} s (at most {SECONDS}), a peak of {peak:.0f} MB")
        os.chdir("/")
    print(f"{idle:.0f} MB are Python's and numpy's own; the limit is {MEGABYTES} MB")
    return faults


if __name__ == "__main__":
    given = options.parser(__doc__).parse_args()
    sys.exit(main(options.library_of(given), options.program_of(given)) and 1)
