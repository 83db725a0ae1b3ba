#!/usr/bin/env python3
"""Tries grids and scenes of the program at their limits, and reads them with programs of others.

    tests/grids.py [--program FILE]

A picture of exactly 2^26 columns, its time beside it, and one of a column more; a scene of exactly
1,000,000 boxes, and one of a box more. What is wanted is worked out here, from how the files were
made. Then Netpbm reads a picture (pamtopnm) and the Castle Game Engine a scene (tovrmlx3d), where
they are there, and what each of them finds is compared. Ends with 1 where something is otherwise.
"""
import re
import shutil
import subprocess
import sys
import tempfile
import time
from pathlib import Path

HERE = Path(__file__).resolve().parent
sys.path.append(str(HERE.parent / "tools/check"))
import options  # noqa: E402

PROGRAM = options.program(__doc__)
HEADER = b"# Octomap OcTree binary file\nid OcTree\nsize %d\nres 0.1\ndata\n"
LOW, SPANS = "-3276.8", 8**6
failed = 0


def say(what, holds, found=""):
    global failed
    failed += not holds
    print(f"{'stands' if holds else 'FAILS '}  {what}{'' if holds else f': {found!r:.200}'}")


def run(words, data):
    begin = time.monotonic()
    done = subprocess.run([PROGRAM, *words.split()], input=data, stdout=subprocess.PIPE,
                          stderr=subprocess.DEVNULL)
    return done.returncode, done.stdout, time.monotonic() - begin


def quarters():
    """Below the origin on z: free where x and y are low, occupied where x is high and y low."""
    return HEADER % 3 + bytes([0b1001, 0])


def large_pictures():
    # Columns from -409.6 m on, 4,096 of them on each side of the origin, on both axes.
    words = "project -409.6 -409.6 -1 409.5 {} -1"
    status, text, seconds = run(words.format("409.5"), quarters())
    upper = b"\xcd" * 8192
    lower = b"\xfe" * 4096 + b"\x00" * 4096
    wanted = b"P5\n8192 8192\n255\n" + upper * 4096 + lower * 4096
    say(f"a picture of 2^26 columns, {seconds:.1f} s", (status, text) == (0, wanted), text[:40])
    came = run(words.format("409.6"), quarters())[:2]
    say("one more row is refused", came == (1, b"refused 38 WideGrid count 67117056\n"), came)
    came = run("project 0 0 -0.1 0 0 -0.1", quarters())[:2]
    say("a picture of one column", came == (0, b"P5\n1 1\n255\n\xcd"), came)


def scattered(boxes):
    """A file of this many occupied voxels, each a box: four or three in each block of two voxels a
    side, of the 8^6 in a block of depth 9."""
    size = 10 + sum(8**level for level in range(1, 7)) + boxes
    parts = [HEADER % size, bytes([3, 0]) * 9]
    for block in range(SPANS):
        parts += [b"\xff\xff" for level in range(1, 7) if block % 8**level == 0]
        parts.append(b"\xaa\x00" if block < boxes - 3 * SPANS else b"\x2a\x00")
    return b"".join(parts)


def many_boxes():
    status, text, seconds = run("vrml", scattered(1_000_000))
    lines = text.splitlines()
    whole = len(lines) == 1_000_001 and len(set(lines)) == len(lines)
    say(f"a scene of 1,000,000 boxes, {seconds:.1f} s", status == 0 and whole, len(lines))
    came = run("vrml", scattered(1_000_001))[:2]
    say("one more is refused", came == (1, b"refused 39 TooManyBoxes count 1000001\n"), came)


def read_by_others():
    flat = subprocess.run([sys.executable, HERE.parent / "examples/flat.py"],
                          stdout=subprocess.PIPE, check=True).stdout
    file = run("build 0.05", flat)[1]
    picture, scene = run("project -5.2 -3.7 0 5.2 3.7 1", file)[1], run("vrml", file)[1]
    if shutil.which("pamtopnm"):
        plain = subprocess.run(["pamtopnm", "-plain"], input=picture, stdout=subprocess.PIPE,
                               check=True).stdout.split()
        say("Netpbm reads the same greys", plain[:4] == [b"P2", b"209", b"149", b"255"]
            and bytes(map(int, plain[4:])) == picture[-209 * 149:], plain[:4])
    else:
        print("left out  Netpbm isn't there")
    if shutil.which("tovrmlx3d"):
        read_boxes(scene)
    else:
        print("left out  tovrmlx3d isn't there")


def read_boxes(scene):
    with tempfile.NamedTemporaryFile(suffix=".wrl") as file:
        file.write(scene)
        file.flush()
        read = subprocess.run(["tovrmlx3d", file.name, "--encoding=xml"], stdout=subprocess.PIPE,
                              stderr=subprocess.DEVNULL).stdout
    numbers = re.compile(rb'(?:translation|size)="([^"]*)"')
    found = [round(float(it), 3) for group in numbers.findall(read) for it in group.split()]
    wanted = [float(it) for it in re.findall(rb"-?\d[\d.]*", scene.partition(b"\n")[2])]
    count = len(found) // 6
    say(f"the Castle Game Engine reads the same {count} boxes", found == wanted, found[:6])


large_pictures()
many_boxes()
read_by_others()
sys.exit(1 if failed else 0)
