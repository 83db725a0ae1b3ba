"""Two files side by side: the map that they give together, and the table of their classes."""
import bt_file
from session import MOST_FILE
from texts import Refused
from world import World

RULES = {"greatest": max, "least": min, "first": lambda a, b: a}
NAMES = ("unknown", "free", "occupied")


def load(files, name):
    """The edge of a file, and its whole map as an entry."""
    if name not in files:
        raise Refused("33 NoFile")
    if len(files[name]) > MOST_FILE:
        raise Refused("34 FileTooLarge")
    edge, root, _ = bt_file.read(files[name])
    return edge, 0 if root is None else root


def load_both(files, names):
    """The edge of two files, and their maps."""
    found = []
    for which, name in zip(("first", "second"), names):
        try:
            found.append(load(files, name))
        except Refused as refusal:
            raise Refused(f"{which} refused {refusal}") from refusal
    (edge, first), (other, second) = found
    if edge != other:
        raise Refused(f"refused 35 OtherResolution file {other} session {edge}")
    return edge, first, second


def split(entry):
    """The entries of the eight children."""
    return entry if isinstance(entry, list) else [entry] * 8


def merge(rule, first, second):
    """The entry of a block, by that of two maps. What one of them doesn't know the other tells."""
    if isinstance(first, list) or isinstance(second, list):
        return [merge(rule, *pair) for pair in zip(split(first), split(second))]
    return RULES[rule](first, second) if first and second else first or second


def shared(low, high, corner, side):
    """How many voxels a block has in common with a box."""
    count = 1
    for a, b, c in zip(low, high, corner):
        count *= max(0, min(b + 1, c + side) - max(a, c))
    return count


def count(counts, box, first, second, corner=(0, 0, 0), side=65536):
    """Adds the voxels of a block that lie in the box, by their two classes."""
    size = shared(*box, corner, side)
    if not size:
        return
    if not isinstance(first, list) and not isinstance(second, list):
        counts[first, second] = counts.get((first, second), 0) + size
        return
    for index, (a, b) in enumerate(zip(split(first), split(second))):
        part = [c + side // 2 * (index >> axis & 1) for axis, c in enumerate(corner)]
        count(counts, box, a, b, part, side // 2)


def table(edge, first, second, points):
    """The nine lines of the voxels between two points."""
    try:
        box = World(edge).corners(*points)
    except Refused as refusal:
        raise Refused(f"refused {refusal}") from refusal
    counts = {}
    count(counts, box, first, second)
    return "".join(
        f"{one} {other} {counts.get((i, j), 0)}\n"
        for i, one in enumerate(NAMES)
        for j, other in enumerate(NAMES)
    ).encode()
