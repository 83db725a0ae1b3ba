"""A map as a dictionary of the known voxels' values, with what a session knows beside them."""
import itertools
import math
from typing import NamedTuple

from beams import around, cut, is_in_map, key, posed, voxels_met
from texts import Refused

UNKNOWN, FREE, OCCUPIED = range(3)
MOST_BLOCKS = MOST_UNDER_MARK = 1_000_000
KINDS = {
    (UNKNOWN, FREE): "new",
    (UNKNOWN, OCCUPIED): "new",
    (FREE, UNKNOWN): "lost",
    (OCCUPIED, UNKNOWN): "lost",
    (FREE, OCCUPIED): "occupied",
    (OCCUPIED, FREE): "freed",
}


class Odds(NamedTuple):
    hit: int = 850
    miss: int = -400
    min: int = -2000
    max: int = 3500
    thr: int = 0

    def fault(self):
        """The index of the first number whose own condition fails, or None."""
        goods = (
            self.hit > 0,
            self.miss < 0,
            self.min <= 0,
            self.max >= 0,
            self.min < self.thr <= self.max,
        )
        for index, (good, it) in enumerate(zip(goods, self)):
            if not good or abs(it) > 1_000_000:
                return index
        return None

    def clamped(self, value):
        return max(self.min, min(self.max, value))

    def class_of(self, value):
        return UNKNOWN if value is None else OCCUPIED if value >= self.thr else FREE


class Limits(NamedTuple):
    groups: int = 2**24
    cells: int = 2**26


def block(voxel, depth):
    return tuple(it >> (16 - depth) for it in voxel)


def children(voxels, depth):
    """The voxels of each child of a block of this depth, by the child's index."""
    parts, low = [{} for _ in range(8)], 15 - depth
    for voxel, thing in voxels.items():
        x, y, z = voxel
        parts[(x >> low & 1) + 2 * (y >> low & 1) + 4 * (z >> low & 1)][voxel] = thing
    return parts


def uniform(voxels, depth):
    """The one thing that all voxels of a block have, None if all are unknown, or Mixed."""
    if not voxels:
        return None
    things = set(voxels.values())
    return things.pop() if len(things) == 1 and len(voxels) == 8 ** (16 - depth) else Mixed


class Mixed:
    """The answer of `uniform` for a block whose voxels aren't all alike."""


def least_tree(voxels, depth=0):
    """How many blocks aren't uniform, and how many of their children hold something."""
    if depth == 16 or uniform(voxels, depth) is not Mixed:
        return 0, 0
    parts = [part for part in children(voxels, depth) if part]
    below = [least_tree(part, depth + 1) for part in parts]
    return 1 + sum(groups for groups, _ in below), len(parts) + sum(nodes for _, nodes in below)


def corners_fault(low, high):
    if any(a > b for a, b in zip(low, high)):
        raise Refused("26 BadBox")


def cut_blocks(low, high, depth):
    """How many blocks of a depth meet the box and don't lie in it."""
    span = 1 << (16 - depth)
    met = math.prod(b // span - a // span + 1 for a, b in zip(low, high))
    inside = math.prod(max(0, (b + 1) // span - -(-a // span)) for a, b in zip(low, high))
    return met - inside


class World:
    def __init__(self, edge, odds=Odds(), limits=Limits()):
        self.edge, self.odds, self.limits = edge, odds, limits
        self.values, self.is_stale, self.marked, self.window = {}, False, None, None

    def voxels(self, *points):
        """The voxels of these points, which are refused where one lies outside the map."""
        for number, point in enumerate(points, 1):
            if not is_in_map(key(point, self.edge)):
                raise Refused(f"24 Outside point {number}")
        return [key(point, self.edge) for point in points]

    def corners(self, low, high):
        low, high = self.voxels(low, high)
        corners_fault(low, high)
        return low, high

    def make_room(self, need, groups=None):
        if groups is None:
            if 16 * len(self.values) + need <= self.limits.groups:
                return  # a known voxel lies in 16 blocks, so no more groups than these are needed
            groups = least_tree(self.values)[0]
        if groups + need > self.limits.groups:
            raise Refused(f"23 Full groups {groups} need {need}")

    def add(self, voxel, step):
        self.values[voxel] = self.odds.clamped(self.values.get(voxel, 0) + step)

    def is_in_window(self, voxel):
        if self.window is None:
            return True
        low, high = self.window
        return all(a <= it <= b for a, it, b in zip(low, voxel, high))

    def scan(self, place, turn, reach, own_odds, is_lazy, points):
        if not any(turn):
            raise Refused("5 ZeroQuaternion")
        if not is_in_map(key(place, self.edge)):
            raise Refused("6 OriginOutside")
        beams = [cut(place, posed(place, turn, point), reach) for point in points]
        for index, (end, _) in enumerate(beams):
            if not is_in_map(key(end, self.edge)):
                raise Refused(f"7 PointOutside index {index}")
        hits, frees, cells = set(), set(), 0
        for index, (end, was_cut) in enumerate(beams):
            met = voxels_met(place, end, self.edge)
            cells += len(met)
            if cells > self.limits.cells:
                raise Refused(f"8 TooManyCells index {index} cells {cells}")
            frees |= set(met) - {key(end, self.edge)}
            hits |= set() if was_cut else {key(end, self.edge)}
        hits, frees = (set(filter(self.is_in_window, it)) for it in (hits, frees - hits))
        self.make_room(len({there for voxel in hits | frees for there in around(voxel)}))
        hit, miss = own_odds or self.odds[:2]
        for voxels, step in ((hits, hit), (frees, miss)):
            for voxel in voxels:
                self.add(voxel, step)
        self.is_stale |= is_lazy
        return f"ok hits {len(hits)} frees {len(frees)}"

    def change(self, voxel, verb, number=0):
        if verb == "forget":
            self.values.pop(voxel, None)
        elif verb == "set":
            self.values[voxel] = self.odds.clamped(number)
        else:
            self.add(voxel, {"hit": self.odds.hit, "miss": self.odds.miss}.get(verb, number))

    def edit(self, point, verb, numbers, is_lazy):
        (voxel,) = self.voxels(point)
        self.make_room(16)
        self.change(voxel, verb, *numbers)
        self.is_stale |= is_lazy
        return "ok"

    def edit_box(self, low, high, verb, numbers):
        low, high = self.corners(low, high)
        count = math.prod(b - a + 1 for a, b in zip(low, high))
        if self.marked is not None and count > MOST_UNDER_MARK:
            raise Refused(f"27 WideWhileTracked count {count}")
        self.make_room(sum(cut_blocks(low, high, depth) for depth in range(16)))
        for voxel in itertools.product(*(range(a, b + 1) for a, b in zip(low, high))):
            self.change(voxel, verb, *numbers)
        return "ok"

    def likely(self):
        likely = {FREE: self.odds.min, OCCUPIED: self.odds.max}
        self.values = {it: likely[self.odds.class_of(v)] for it, v in self.values.items()}
        self.is_stale = False

    def replace(self, values):
        self.values, self.is_stale, self.marked = values, False, None

    def refuse_inner(self, depth):
        if depth < 16 and self.is_stale:
            raise Refused("22 Stale")

    def known(self, value):
        return f"{value} {'occupied' if value >= self.odds.thr else 'free'}"

    def get(self, point, depth):
        (voxel,) = self.voxels(point)
        if depth > 16:
            raise Refused("25 BadDepth")
        self.refuse_inner(depth)
        there = block(voxel, depth)
        found = [value for it, value in self.values.items() if block(it, depth) == there]
        return f"known {self.known(max(found))}" if found else "unknown"

    def list(self, low, high, depth):
        low, high = self.voxels(low, high)
        if depth > 16:
            raise Refused("25 BadDepth")
        corners_fault(low, high)
        self.refuse_inner(depth)
        first, last = block(low, depth), block(high, depth)
        count = math.prod(b - a + 1 for a, b in zip(first, last))
        if count > MOST_BLOCKS:
            raise Refused(f"9 TooManyBlocks count {count}")
        tops = {}
        for voxel, value in self.values.items():
            there = block(voxel, depth)
            if all(a <= it <= b for a, it, b in zip(first, there, last)):
                tops[there] = max(value, tops.get(there, value))
        lines = ["block {} {} {} {}".format(*it, self.known(tops[it])) for it in sorted(tops)]
        return "\n".join([*lines, f"end {len(lines)}"])

    def cast(self, start, end, ignores_unknown):
        self.voxels(start, end)
        for voxel in voxels_met(start, end, self.edge):
            found = self.odds.class_of(self.values.get(voxel))
            if found == OCCUPIED:
                return "cast hit {} {} {}".format(*voxel)
            if found == UNKNOWN and not ignores_unknown:
                return "cast unknown {} {} {}".format(*voxel)
        return "cast clear"

    def classes(self):
        return {voxel: self.odds.class_of(value) for voxel, value in self.values.items()}

    def changes(self):
        if self.marked is None:
            raise Refused("28 NotTracked")
        before, now, lines = self.marked, self.classes(), []
        for voxel in sorted(before.keys() | now.keys()):
            pair = before.get(voxel, UNKNOWN), now.get(voxel, UNKNOWN)
            if pair[0] != pair[1]:
                lines.append("{} {} {} {}".format(KINDS[pair], *voxel))
        return "\n".join([*lines, f"end {len(lines)}"])

    def counts(self):
        groups, nodes = least_tree(self.values)
        return f"groups {groups} nodes {nodes + bool(self.values)}"
