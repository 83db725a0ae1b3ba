"""The value snapshot: version 2 is written, both versions are read."""
import itertools
import struct

from texts import Refused
from world import Mixed, Odds, children, uniform

MAGICS = {b"OCTSNAP1": 1, b"OCTSNAP2": 2}


def node(values, depth=0):
    one = uniform(values, depth)
    if one is None:
        return b"\0"
    if one is not Mixed:
        return struct.pack(">bi", 1, one)
    return b"\2" + b"".join(node(part, depth + 1) for part in children(values, depth))


def text(world):
    box = b"\0"
    if world.window is not None:
        box = b"\1" + struct.pack(">6H", *world.window[0], *world.window[1])
    return struct.pack(">8sQ5i", b"OCTSNAP2", world.edge, *world.odds) + box + node(world.values)


class Reading:
    """What is read of a snapshot, from the left."""

    def __init__(self, data, odds):
        self.data, self.at, self.groups, self.values = data, 0, 0, {}
        self.version = MAGICS.get(data[:8])
        if self.version is None:
            raise Refused("20 BadMagic")
        self.at = 8
        (self.edge,) = self.take(">Q")
        if not 10**5 <= self.edge <= 10**11:
            raise Refused("21 BadSnapshot at 8")
        self.odds, self.window = odds, None
        if self.version == 2:
            self.read_setup()
        self.read_node((0, 0, 0), 0)
        if self.at < len(data):
            raise Refused(f"18 TrailingBytes at {self.at}")

    def take(self, form):
        size = struct.calcsize(form)
        if self.at + size > len(self.data):
            raise Refused(f"17 Truncated at {len(self.data)}")
        self.at += size
        return struct.unpack(form, self.data[self.at - size : self.at])

    def read_setup(self):
        self.odds = Odds(*self.take(">5i"))
        if self.odds.fault() is not None:
            raise Refused(f"21 BadSnapshot at {16 + 4 * self.odds.fault()}")
        (has_box,) = self.take(">B")
        if has_box > 1:
            raise Refused("21 BadSnapshot at 36")
        if has_box:
            numbers = self.take(">6H")
            self.window = numbers[:3], numbers[3:]
            if any(a > b for a, b in zip(*self.window)):
                raise Refused("21 BadSnapshot at 37")

    def read_node(self, corner, depth):
        """Reads a node, and answers the one value of its voxels, None or Mixed."""
        start = self.at
        (kind,) = self.take(">B")
        if kind > 2 or (kind == 2 and depth == 16):
            raise Refused(f"21 BadSnapshot at {start}")
        if kind == 0:
            return None
        if kind == 1:
            return self.read_value(start, corner, depth)
        half = 1 << (15 - depth)
        parts = []
        for index in range(8):
            low = tuple(c + half * (index >> axis & 1) for axis, c in enumerate(corner))
            parts.append(self.read_node(low, depth + 1))
        if len(set(parts)) == 1 and parts[0] is not Mixed:
            raise Refused(f"21 BadSnapshot at {start}")
        self.groups += 1
        return Mixed

    def read_value(self, start, corner, depth):
        (value,) = self.take(">i")
        if not self.odds.min <= value <= self.odds.max:
            raise Refused(f"21 BadSnapshot at {start}")
        assert depth >= 11, "a block that is too large for this model"
        span = 1 << (16 - depth)
        for voxel in itertools.product(*(range(c, c + span) for c in corner)):
            self.values[voxel] = value
        return value
