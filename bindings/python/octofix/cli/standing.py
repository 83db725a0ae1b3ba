"""What may stand where a file is to be written: a file of the same kind, or an empty one.

Where somebody forgets FILE in `-o FILE *`, the first of the inputs stands there.
"""

import os
import re
from dataclasses import dataclass

from octofix import _files

from .errors import Misused

# The bytes that tell a kind.
FRONT = 1 << 12


@dataclass(frozen=True)
class Kind:
    """A kind of files that tools write: its name, and how such a file begins."""

    name: str
    front: bytes

    def is_of(self, content):
        return re.match(self.front, content) is not None


ANY = Kind("a file", b"")
MAP = Kind("a .bt file", rb"# Octomap OcTree binary file")
SNAPSHOT = Kind("a snapshot", rb"OCTSNAP\d")
SCRIPT = Kind("a script of scans", rb"(scan|hit|miss|box|limit) -?[\d.]")
PAGE = Kind(
    "a page of octofix", rb'(?s)<!doctype html>.*<meta name="generator" content="octofix view">'
)
YAML = Kind("the YAML of a map", rb"(?ms).*?^image:")
PICTURES = {
    "pgm": Kind("a PGM", rb"P[25]\s"),
    "png": Kind("a PNG", rb"\x89PNG\r\n\x1a\n"),
}
_NUMBERS = rb"-?[\d.]+"
POINTS = {
    "ply": Kind("a PLY", rb"ply\r?\n"),
    "pcd": Kind("a PCD", rb"# \.PCD|VERSION "),
    "xyz": Kind("an XYZ of points", rb"%b( %b){2}(( %b){2})?\r?\n" % ((_NUMBERS,) * 3)),
    "csv": Kind("a CSV of points", rb"x,y(,z(,size,class)?)?\r?\n"),
    "npy": Kind("a .npy", rb"\x93NUMPY"),
}


def is_ordinary(name):
    """Whether a name is that of a regular file, or of none: a device or a pipe isn't replaced."""
    is_file = os.path.isfile(name) or not os.path.exists(name)
    return name != "-" and is_file and not _files.is_descriptor(name)


def refuse_others(places, is_forced=False):
    """Refuses to write, to places that are names with kinds, over a file of another kind."""
    for name, kind in () if is_forced else places:
        if not (is_ordinary(name) and os.path.exists(name)):
            continue
        with open(name, "rb") as file:
            content = file.read(FRONT)
        if content and not kind.is_of(content):
            said = f"what stands there is not {kind.name}, so it isn't replaced by one"
            raise Misused(f"{said} (is FILE forgotten? --force replaces it)", name)
