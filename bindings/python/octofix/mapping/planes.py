"""Maps seen from above, as arrays of columns."""

import numpy as np

from octofix.io.errors import Unusable

from .leaves import FREE, UNKNOWN

MOST_COLUMNS = 1 << 26
# What an OccupancyGrid of ROS has for each class.
CELLS = np.array([-1, 0, 100], np.int8)
STEP = 1 << 20
# Columns of a block that is painted by itself.
LARGE = 64


def _plane(low, high, value, kind):
    """An array of a value for each column of the box: (columns on y, columns on x)."""
    width, depth = (int(it) for it in (high - low)[:2] + 1)
    if width * depth > MOST_COLUMNS:
        said = f"{width} x {depth} columns are more than 2^26"
        raise Unusable(f"{said} (--area or --box takes fewer)")
    return np.full((depth, width), value, kind)


def band(leaves, low, high):
    """The greatest class in each column of the box: (columns on y, columns on x), y ascending."""
    plane = _plane(low, high, UNKNOWN, np.int8)
    starts, ends, meets = _in_box(leaves, low, high)
    _raise(plane, starts - low, ends - low, leaves.classes[meets])
    return plane


def cells_of(world, low, high):
    """The same of a map, whose leaves aren't listed for it, as the numbers of CELLS."""
    nothing = _plane(low, high, CELLS[UNKNOWN], np.int8)
    return nothing if low[2] > high[2] else world.grid(*world.centers([low, high]))


def band_of(world, low, high):
    """The same as classes."""
    return np.sign(cells_of(world, low, high)) + FREE


def heights(leaves, low, high):
    """The highest key on z in each column of the box: (columns on y, columns on x), -1 without."""
    plane = _plane(low, high, -1, np.int32)
    starts, ends, _ = _in_box(leaves, low, high)
    _raise(plane, starts - low, ends - low, ends[:, 2])
    return plane


def _in_box(leaves, low, high):
    """The lowest and the highest key that each block of those that meet the box has in it, and
    which ones do."""
    starts, ends = leaves.clipped(low, high)
    meets = (starts <= ends).all(axis=1)
    return starts[meets], ends[meets], meets


def _raise(plane, starts, ends, values):
    """Raises each column that a block stands in, from a start to an end, to its value at least."""
    order = np.argsort(values, kind="stable")
    widths = (ends - starts)[:, 0] + 1
    depths = (ends - starts)[:, 1] + 1
    is_large = (widths * depths)[order] > LARGE
    for at in order[is_large]:
        (x, y), (last_x, last_y) = starts[at, :2], ends[at, :2]
        part = plane[y : last_y + 1, x : last_x + 1]
        np.maximum(part, values[at], out=part)
    # (from the least value on, so that the greatest one stays)
    small = order[~is_large]
    sums = np.cumsum((widths * depths)[small])
    before = sums - (widths * depths)[small]
    for first in range(0, int(sums[-1]) if len(sums) else 0, STEP):
        place = np.arange(first, min(first + STEP, int(sums[-1])))
        at = np.searchsorted(sums, place, "right")
        row, column = np.divmod(place - before[at], widths[small[at]])
        row, column = row + starts[small[at], 1], column + starts[small[at], 0]
        raised = np.maximum(plane[row, column], values[small[at]])
        plane[row, column] = raised
    return plane


def frontier(plane):
    """Where a free cell has an unknown one beside it within the plane."""
    is_unknown = np.pad(plane == UNKNOWN, 1, constant_values=False)
    beside = is_unknown[:-2, 1:-1] | is_unknown[2:, 1:-1]
    beside |= is_unknown[1:-1, :-2] | is_unknown[1:-1, 2:]
    return (plane == FREE) & beside
