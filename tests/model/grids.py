"""What shows the map of a file to other programs: a grey picture of a height band, and occupied
space as boxes."""
import texts
from bt_file import merged
from texts import Refused, metres_text
from world import FREE, OCCUPIED, UNKNOWN, World

MOST_COLUMNS = 2**26
MOST_BOXES = 1_000_000
GREYS = {OCCUPIED: 0, FREE: 254, UNKNOWN: 205}
PLACE = "Transform {{ translation {} {} {} children "
LINE = PLACE + "[ Shape {{ geometry Box {{ size {} {} {} }} }} ] }}"


def class_at(root, voxel):
    """The class of a voxel, by the entries above it."""
    entry = UNKNOWN if root is None else root
    for bit in reversed(range(16)):
        if not isinstance(entry, list):
            break
        entry = entry[sum((number >> bit & 1) << axis for axis, number in enumerate(voxel))]
    return entry


def shown(root, x, y, heights):
    """The strongest of the classes of a column's voxels."""
    return max((class_at(root, (x, y, z)) for z in heights), default=UNKNOWN)


def picture(edge, root, points):
    """The columns between two points, from the highest y down."""
    low, high = World(edge).corners(*points)
    width, height = (high[axis] - low[axis] + 1 for axis in (0, 1))
    if width * height > MOST_COLUMNS:
        raise Refused(f"38 WideGrid count {width * height}")
    heights = range(low[2], high[2] + 1)
    rows = (
        bytes(GREYS[shown(root, x, y, heights)] for x in range(low[0], high[0] + 1))
        for y in range(high[1], low[1] - 1, -1)
    )
    return f"P5\n{width} {height}\n255\n".encode() + b"".join(rows)


def boxes(entry, low=(0, 0, 0), side=65536):
    """The greatest blocks that are occupied throughout: the lowest key of each, and its side."""
    if isinstance(entry, list):
        half = side // 2
        for index, it in enumerate(entry):
            corner = [n + half * (index >> axis & 1) for axis, n in enumerate(low)]
            yield from boxes(it, corner, half)
    elif entry == OCCUPIED:
        yield low, side


def box_line(edge, low, side):
    # A middle is a whole number of half nanometres.
    middle = [(2 * (number - 32768) + side) * edge for number in low]
    size = metres_text(side * edge)
    return LINE.format(*(metres_text(5 * it, 10) for it in middle), size, size, size)


def scene(edge, root):
    """A line for each box, in the order of the records."""
    found = list(boxes(UNKNOWN if root is None else merged(root)))
    if len(found) > MOST_BOXES:
        raise Refused(f"39 TooManyBoxes count {len(found)}")
    lines = ["#VRML V2.0 utf8", *(box_line(edge, low, side) for low, side in found)]
    return "".join(f"{line}\n" for line in lines).encode()


def points(words):
    """The points that six words spell, or None."""
    numbers = [texts.metres(word.encode()) for word in words]
    return None if None in numbers or len(numbers) != 6 else (numbers[:3], numbers[3:])
