"""Runs the command octofix within this process, in a folder of its own."""

import contextlib
import io
import os
import resource
import sys
import tempfile
import unittest
from dataclasses import dataclass
from pathlib import Path
from unittest import mock

from octofix import Map
from octofix._program import main

DATA = Path(__file__).parent / "data"


# How old files begin, by their endings.
FRONTS = {
    "bt": b"# Octomap OcTree binary file\n",
    "snap": b"OCTSNAP2",
    "html": b'<!doctype html>\n<meta name="generator" content="octofix view">\n',
    "png": b"\x89PNG\r\n\x1a\n",
    "pgm": b"P5\n",
    "yaml": b"image: old.pgm\n",
    "ply": b"ply\n",
    "pcd": b"# .PCD v0.7\n",
    "csv": b"x,y,z\n",
    "npy": b"\x93NUMPY",
    "txt": b"scan 0 0 0 1 0 0 0 all\n",
    "xyz": b"1.5 -2 0\n",
}
OLD_MAP = FRONTS["bt"] + b"old"


def old(name):
    """The content of an old file that a tool may replace, of the kind that the name says."""
    return FRONTS[name.rpartition(".")[2]] + b"old"


@dataclass(frozen=True)
class Ran:
    """The status, the output, and the lines on standard error."""

    status: int
    output: bytes
    said: str


def octofix(*words, given=b""):
    how = {"errors": "backslashreplace", "write_through": True}
    streams = [io.TextIOWrapper(io.BytesIO(), **how) for _ in range(2)]
    given = io.TextIOWrapper(io.BytesIO(given))
    with mock.patch.multiple(sys, stdout=streams[0], stderr=streams[1], stdin=given):
        try:
            status = main([str(it) for it in words])
        except SystemExit as end:
            status = end.code
        output, said = (it.buffer.getvalue() for it in streams)
    return Ran(status, output, said.decode())


@contextlib.contextmanager
def files_of_at_most(count):
    """Within this no file may have more bytes. (A fault is told behind it: that may go to one.)"""
    limits = resource.getrlimit(resource.RLIMIT_FSIZE)
    resource.setrlimit(resource.RLIMIT_FSIZE, (count, limits[1]))
    try:
        yield
    finally:
        resource.setrlimit(resource.RLIMIT_FSIZE, limits)


class InFolder(unittest.TestCase):
    """A test in an empty folder."""

    maxDiff = None

    def setUp(self):
        folder = tempfile.TemporaryDirectory()
        self.addCleanup(folder.cleanup)
        self.addCleanup(os.chdir, os.getcwd())
        os.chdir(folder.name)

    def done(self, *words, status=0, given=b""):
        """What a command that has to end so wrote and said."""
        ran = octofix(*words, given=given)
        self.assertEqual(ran.status, status, ran.said)
        return ran

    def refused(self, said, *words, status=1, given=b""):
        """A command has to say this in one line, and nothing on the output."""
        ran = octofix(*words, given=given)
        self.assertEqual(ran.said.splitlines()[-1:], [f"octofix: {said}"])
        self.assertEqual((ran.status, ran.output), (status, b""))

    def script(self, *words, status=0, given=b""):
        """The script that `octofix map` makes."""
        words = ("map", "--res", "0.1", *words, "--script", "-")
        return self.done(*words, status=status, given=given).output.decode()


def save_map(name, resolution, voxels):
    """Writes a .bt file of voxels: keys (x, y, z) counted from the origin, and their values."""
    with Map(resolution) as world:
        for keys, value in voxels.items():
            world.set([[(it + 0.5) * resolution for it in keys]], value)
        world.save(name)
