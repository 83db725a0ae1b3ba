"""Poses and beams, in exact fractions and in whole parts of a segment."""
import functools
import math
from fractions import Fraction

MIDDLE = 32768


def key(point, edge):
    return tuple(coordinate // edge + MIDDLE for coordinate in point)


def is_in_map(voxel):
    return all(0 <= it < 65536 for it in voxel)


def half_up(number):
    return math.floor(number + Fraction(1, 2))


def product(p, q):
    """Hamilton's product of two quaternions, the real part first."""
    a, b, c, d = p
    e, f, g, h = q
    return (
        a * e - b * f - c * g - d * h,
        a * f + b * e + c * h - d * g,
        a * g - b * h + c * e + d * f,
        a * h + b * g - c * f + d * e,
    )


def posed(place, turn, point):
    w, x, y, z = turn
    turned = product(product(turn, (0, *point)), (w, -x, -y, -z))[1:]
    norm = w * w + x * x + y * y + z * z
    return tuple(t + half_up(Fraction(n, norm)) for t, n in zip(place, turned))


def cut(place, end, reach):
    """The end of the beam, and whether it was cut: the length rounded up, the end to the origin."""
    squares = sum((e - o) ** 2 for o, e in zip(place, end))
    if reach == "all" or squares <= reach * reach:
        return end, False
    length = math.isqrt(squares - 1) + 1
    return tuple(o + int(Fraction((e - o) * reach, length)) for o, e in zip(place, end)), True


def part_in(start, end, number, edge, whole):
    """The part of a coordinate's way, from 0 to a whole, that lies in a voxel's span, or None.

    The whole is a multiple of the way, so that each moment at a face is a whole number. A span
    lacks its upper face. Each bound stands with 1 where its own point doesn't count, so that the
    greater of two lower bounds and the smaller of two upper ones come by comparing pairs.
    """
    lower = (number - MIDDLE) * edge
    upper = lower + edge
    if start == end:
        return ((0, 0), (whole, 0)) if lower <= start < upper else None
    enters, leaves = ((it - start) * (whole // (end - start)) for it in (lower, upper))
    if start < end:
        return max((0, 0), (enters, 0)), min((whole, 0), (leaves, -1))
    return max((0, 0), (leaves, 1)), min((whole, 0), (enters, 0))


def common(first, second):
    """What two parts have in common, or None."""
    if first is None or second is None:
        return None
    low, high = max(first[0], second[0]), min(first[1], second[1])
    is_place = low[0] == high[0] and low[1] == high[1] == 0
    return (low, high) if low[0] < high[0] or is_place else None


def voxels_met(place, end, edge):
    """Each voxel that the closed segment meets, in the order of their places.

    Slab by slab: for each number of x the part of the segment in it, in that part each number of y,
    and so on. A number that is tried and isn't met leaves no part.
    """
    met = []
    whole = math.lcm(*(stop - start or 1 for start, stop in zip(place, end)))

    def go(voxel, part):
        axis = len(voxel)
        if axis == 3:
            met.append((part[0], voxel))
            return
        start, stop = place[axis], end[axis]
        ways = [(stop - start) * moment // whole for moment, _ in part]
        places = [(start + way) // edge + MIDDLE for way in ways]
        for number in range(min(places) - 1, max(places) + 2):
            inside = common(part, part_in(start, stop, number, edge, whole))
            if inside is not None:
                go((*voxel, number), inside)

    go((), ((0, 0), (whole, 0)))
    return [voxel for _, voxel in sorted(met)]


@functools.lru_cache(maxsize=4096)
def around(voxel):
    """The blocks of depth 0 to 15 that hold a voxel."""
    return [(depth, tuple(number >> (16 - depth) for number in voxel)) for depth in range(16)]
