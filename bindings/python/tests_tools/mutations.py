"""Files of all kinds that the tools read, and damage to them."""

from __future__ import annotations

import gzip
import importlib
import importlib.util
import io
import random
import re
import struct
import os
import shutil
import tempfile
from dataclasses import dataclass, field

import numpy as np
from running import DATA

from octofix import Map, tiles
from octofix.mapping.maps import OT_READER

NUMBER = re.compile(rb"[-+]?[0-9]+(?:\.[0-9]+)?")
WORDS = b"nan -1 1e400 1e200 99999999999999 4294967295 0 1_0 0x10 -".split() + [b""]
BYTES = [bytes([it]) for it in b"\0\xff\x7f\x80\n\r #,\xc3"]
# (NaNs that signal, of 32 and 64 bits, and the front of gzip's)
BYTES += [b"\xff\xff\xa0\x7f", b"\xff\xff\xff\xff\xff\xff\xf4\x7f", b"\x1f\x8b"]
POINTS = np.array([[2, -0.5, 0], [1, 0, -0.4], [0.5, 1.5, 0.25], [-1, 2, 1]])
# The way from the root to the voxel beyond the origin, which is occupied, and one that is free.
OT = b"# Octomap OcTree file\nid OcTree\nsize 18\nres 0.5\ndata\n"
OT += struct.pack("<fB", 0.85, 0x80) + struct.pack("<fB", 0.85, 1) * 14
OT += b"".join(struct.pack("<fB", *it) for it in ((0.85, 3), (0.85, 0), (-0.4, 0)))
EUROC = b"#timestamp, p_x [m], p_y [m], p_z [m], q_w [], q_x [], q_y [], q_z []\n"
EUROC += b"1403636579763555584,1,2,3,1,0,0,0\n"


@dataclass(frozen=True)
class Sample:
    """A whole file of some kind, and the words of a command that reads it as `name`, beside files
    of other names, and writes to `output`, or to none."""

    name: str
    content: bytes
    words: tuple
    output: str | None = "out.bt"
    beside: dict = field(default_factory=dict)


def samples(has_bags):
    """One of each kind at least."""
    endings = [".xyz", ".csv", ".pcd", ".ply", ".log", ".graph", ".bag"]
    files = sorted(it for it in DATA.iterdir() if it.suffix in endings[: 6 + has_bags])
    found = [_cloud(it.suffix, it.read_bytes()) for it in files if it.stat().st_size < 1 << 16]
    found += [_cloud(".npy", _npy(it)) for it in (POINTS, POINTS.astype("<f4"), _records())]
    found.append(_cloud(".bin", np.ones((6, 4), "<f4").tobytes()))
    found.append(_cloud(".pcd.bin", np.ones((6, 5), "<f4").tobytes()))
    found.append(_cloud(".bin", np.ones((5, 4), "<f8").tobytes(), "--columns-of-bin", "4d"))
    archive = io.BytesIO()
    np.savez_compressed(archive, points=POINTS, n=POINTS[0])
    found.append(_cloud(".npz", archive.getvalue()))
    found.append(_cloud(".pts", b"2\n1 2 3 7 0 0 255\n4 5 6 7 0 0 255\n"))
    camera = ("--camera", 4, 2, 1, 0, "--depth-scale", 1000)
    found.append(_cloud(".npy", _npy(np.array([[1, 2, 0], [0, 4, 7]], "<u2")), *camera))
    if importlib.util.find_spec("PIL"):
        found.append(_cloud(".png", _png(np.array([[1, 2, 0], [0, 4, 7]], "<u2")), *camera))
    found.append(_cloud(".xyz.gz", gzip.compress(b"1 2 3\n4 5 6\n")))
    if has_bags:
        bag, poses = (DATA / "small.bag").read_bytes(), ("--pose-topic", "/odom")
        found += [_cloud(".bag", bag, *it) for it in (poses, ("--frame", "odom"))]
    found += [_poses(DATA.joinpath("poses.tum").read_bytes(), 3), _poses(EUROC, 1)]
    found.append(_poses(b"0 -1 0 1 1 0 0 2 0 0 1 3\n1 0 0 0 0 1 0 0 0 0 1 4\n", 2))
    found.append(_poses(b"1 0 0 5\n0 1 0 6\n0 0 1 7\n0 0 0 1\n", 1))
    found.append(_poses(b"# x y z qw qx qy qz\n1 2 3 1 0 0 0\n4 5 6 0 1 0 0\n", 2))
    times = ("map", "--res", "100", "--quiet", "--poses", DATA / "poses.tum", "--times", "times")
    found.append(Sample("times", b"1.5\n", (*times, "--tolerance", "9", DATA / "corner.xyz")))
    return found + _maps() + _tiles()


# What reads a map, and what it writes.
BOX = ("--box", 0, 0, 0, 1, 1, 1)
READERS = (
    (("crop", "map", *BOX), "out.bt"), (("coarsen", "map", "--depth", 14), "out.bt"),
    (("merge", "map", "other"), "out.bt"), (("merge", "other", "map"), "out.bt"),
    (("map", "--quiet", "--from", "map", DATA / "corner.xyz"), "out.bt"),
    (("points", "map", *BOX, "--what", "frontier"), "out.ply"), (("view", "map"), "out.html"),
    (("grid", "map"), "out.pgm"), (("info", "map"), None), (("compare", "map", "other"), None),
    (("check", "map", "--quiet", DATA / "corner.xyz"), None),
)  # fmt: skip


def _maps():
    """Maps of each kind; .ot files where the program is there that reads these."""
    with Map(0.5) as world:
        world.scan(POINTS)
        beside = {"other": world.to_snapshot()}
        kinds = [world.to_bt(), world.to_snapshot()]
    kinds += [OT] * bool(shutil.which(OT_READER))
    return [
        Sample("map", content, words, output, beside)
        for content in kinds
        for words, output in READERS
        # (whose log-odds are others)
        if (content, words[0]) != (OT, "merge")
    ]


def _tiles():
    """Each file of some tiles, read by each of their commands."""
    with tempfile.TemporaryDirectory() as folder:
        with tiles.create(folder, 0.5, edge=8) as town:
            town.add([(POINTS, (0, 0, 0)), (POINTS, (7, 0, 0))])
        files = {}
        for place, _, names in os.walk(folder):
            for name in names:
                path = os.path.join(place, name)
                with open(path, "rb") as file:
                    files[os.path.join("town", os.path.relpath(path, folder))] = file.read()
    commands = (
        (("info", "town"), None), (("check", "town"), None), (("points", "town"), "out.ply"),
        (("grid", "town"), "out.pgm"), (("view", "town"), "out.html"),
        (("crop", "town", *BOX), "out.bt"), (("add", "town", "--quiet", DATA / "corner.xyz"), None),
    )  # fmt: skip
    names = [it for it in sorted(files) if not it.endswith("lock")]
    return [
        Sample(name, files[name], ("tiles", *words), output, files)
        for name in names
        for words, output in commands
    ]


def _cloud(ending, content, *words):
    words = ("map", "--res", "100", "--quiet", *words, f"cloud{ending}")
    return Sample(words[-1], content, words)


def _poses(content, many):
    clouds = [DATA / it for it in ("corner.pcd", "corner.xyz", "corner_ascii.ply")[:many]]
    return Sample("poses", content, ("map", "--res", "100", "--quiet", "--poses", "poses", *clouds))


def _png(array):
    file = io.BytesIO()
    importlib.import_module("PIL.Image").fromarray(array).save(file, "PNG")
    return file.getvalue()


def _npy(array):
    file = io.BytesIO()
    np.save(file, array)
    return file.getvalue()


def _records():
    records = np.zeros(4, [("x", "<f4"), ("t", "U2"), ("y", "<f8"), ("z", "<i2")])
    records["x"] = 2
    return records


def damaged(content, seed, others):
    """The content with one change or a few of this seed; others is where pieces of other files may
    come from."""
    chance = random.Random(seed)
    for _ in range(chance.choice((1, 1, 2, 5))):
        content = chance.choice(CHANGES)(content, chance, chance.choice(others).content)
    return content


def _place(content, chance):
    """A place, of which more lie at the front, where headers are."""
    limit = chance.choice((64, 512, len(content)))
    return chance.randrange(min(limit, len(content)) + 1)


def _flip(content, chance, other):
    at = min(_place(content, chance), max(len(content) - 1, 0))
    flipped = bytes([content[at] ^ 1 << chance.randrange(8)]) if content else b""
    return content[:at] + flipped + content[at + 1 :]


def _overwrite(content, chance, other):
    at, new = _place(content, chance), chance.choice(BYTES)
    return content[:at] + new + content[at + len(new) :]


def _insert(content, chance, other):
    at = _place(content, chance)
    return content[:at] + chance.choice((*BYTES, *WORDS, chance.randbytes(9))) + content[at:]


def _cut(content, chance, other):
    return content[: _place(content, chance)]


def _leave_out(content, chance, other):
    at = _place(content, chance)
    return content[:at] + content[at + chance.choice((1, 2, 4, 30)) :]


def _double(content, chance, other):
    at = _place(content, chance)
    end = at + chance.choice((1, 4, 40, 400))
    return content[:end] + content[at:end] + content[end:]


def _splice(content, chance, other):
    return content[: _place(content, chance)] + other[_place(other, chance) :][:5000]


def _renumber(content, chance, other):
    """Another number, or none, in place of one that is spelt."""
    found = list(NUMBER.finditer(content[:4096]))
    if not found:
        return content
    it = chance.choice(found)
    return content[: it.start()] + chance.choice(WORDS) + content[it.end() :]


CHANGES = (_flip, _overwrite, _insert, _cut, _leave_out, _double, _splice, _renumber, _renumber)
