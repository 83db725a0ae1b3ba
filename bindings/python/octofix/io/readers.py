"""Scans of files that several threads read, each file by one."""

import copy
import os

from .notes import kept, say
from .scans import Left
from .skips import Skips


class Readers:
    """For each scan of some what reads it, in their order, in any thread. Files that have one cloud
    each, and can be read from anywhere, are read there; other clouds are read one after another."""

    def __init__(self, scans):
        self.scans = scans

    def __iter__(self):
        if self.scans.is_one_each() and all(map(os.path.isfile, self.scans.names)):
            for number in range(len(self.scans.names)):
                yield Reader(self.scans, number)
            self.scans.clouds = len(self.scans.names)
            return
        for scan in self.scans.of_files(0, len(self.scans.names)):
            yield Read(scan)


class Read:
    """A scan that is read."""

    def __init__(self, scan):
        self.scan, self.size = scan, scan.points.nbytes

    def __call__(self):
        scan, self.scan = self.scan, None
        return scan

    def tell(self, scans):
        """All is told."""


class Reader:
    """Reads the cloud of a file, and keeps what is to be said and counted until it is asked."""

    def __init__(self, scans, number):
        self.own, self.number, self.lines = copy.copy(scans), number, []
        self.own.clouds, self.own.left, self.own.gaps = number, Left(), 0
        self.own.said, self.own.skips = set(), Skips(False)
        self.size = os.path.getsize(scans.names[number])

    def __call__(self):
        """The scan, or None where it has no pose; Unusable where it can't be used."""
        with kept() as self.lines:
            return next(self.own.of_files(self.number, self.number + 1), None)

    def tell(self, scans):
        """Says and counts it all, as if the scans themselves had read it."""
        for line in self.lines:
            notes = [it for it in self.own.said if line.endswith(f": {it}")]
            if not scans.said.issuperset(notes) or not notes:
                say(line)
            scans.said.update(notes)
        scans.gaps += self.own.gaps
        for kind, many in vars(self.own.left).items():
            setattr(scans.left, kind, getattr(scans.left, kind) + many)
