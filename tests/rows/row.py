"""What a row is: the words of a run, what it is given, and what it must answer; and the bytes of
files, as the formats put them together."""
from functools import lru_cache
from typing import Callable, Mapping, NamedTuple, Optional, Sequence, Tuple, Union

METRES_OF_RES = 10 ** 9
DEFAULT_ODDS = (850, -400, -2000, 3500, 0)


class Built(NamedTuple):
    """What the program builds of a script at 0.1 m, as the input of another run."""
    script: str


class Holes(NamedTuple):
    """Bytes, and then zeros up to a length; on the disk they take no room."""
    front: bytes
    length: int


class Front(NamedTuple):
    """An answer that begins with these lines; how it goes on isn't said."""
    text: str


# A text of lines: ' ; ' parts those that are given, ' / ' those that are wanted. Bytes are as they
# stand. A function makes bytes that are many.
Given = Union[str, bytes, Built, Holes, Callable[[], bytes]]
Wanted = Union[str, bytes, Front, Callable[[], bytes]]


class Row(NamedTuple):
    """One run of the program in a folder of its own. A status that isn't named is 1 where a wanted
    line is a refusal, and 0 else. What isn't in `left` is left in the folder as it was. Words are
    parted by blanks, or stand as a list, of which one may be empty."""
    rule: str
    words: Union[str, Sequence[str]]
    given: Given = ""
    wanted: Wanted = ""
    status: Optional[int] = None
    files: Mapping[str, Union[bytes, Holes]] = {}
    left: Mapping[str, bytes] = {}


def data(text: str) -> bytes:
    """The bytes of a hexadecimal text."""
    return bytes.fromhex(text)


# Records from the map down to the block of depth 15 around voxel 0, without the record of that
# block: voxel 0 is in child 7 of the map, and in child 0 of each block below.
DOWN = "00C0" + 14 * "0300"


@lru_cache(None)
def wall(width: int, height: int, depth: int = 1) -> bytes:
    """The records of a block of this depth at voxel 0 that holds a wall of occupied voxels, of so
    many on x and on y, and of one on z."""
    half = 1 << 15 - depth
    codes, below = 0, b""
    for i in range(4):
        across = min(width, half) if i % 2 == 0 else width - half
        up = min(height, half) if i < 2 else height - half
        if across > 0 and up > 0:
            codes |= (2 if half == 1 else 3) << 2 * i
            below += wall(across, up, depth + 1) if half > 1 else b""
    return bytes([codes, 0]) + below


def head(*lines: str) -> bytes:
    """A header of the least: its first line, lines of one's own, and the data line."""
    return "\n".join(("# Octomap OcTree binary file",) + lines + ("data", "")).encode()


def bt(size: int, records: str, res: str = "0.1") -> bytes:
    """The binary file of a map, as it is written."""
    comments = ("# (feel free to add / change comments, but leave the first line as it is!)", "#")
    return head(*comments, "id OcTree", f"size {size}", f"res {res}") + data(records)


def short_bt(size: int, records: str, res: str = "0.1") -> bytes:
    """The same with a header of five lines, which is 60 bytes with a size of two digits."""
    return head("id OcTree", f"size {size}", f"res {res}") + data(records)


def value(number: int) -> bytes:
    """The node of a block whose voxels all have this value."""
    return b"\1" + number.to_bytes(4, "big", signed=True)


def parted(children: Mapping[int, bytes]) -> bytes:
    """The node of a block of several values, of whose children the others are unknown."""
    return b"\2" + b"".join(children.get(i, b"\0") for i in range(8))


def down(node: bytes, depth: int) -> bytes:
    """The map's node, where all that is known stands in the block of this depth around voxel 0."""
    for _ in range(depth - 1):
        node = parted({0: node})
    return parted({7: node})


def snap1(nodes: bytes, res: int = METRES_OF_RES // 10) -> bytes:
    """A snapshot of version 1."""
    return b"OCTSNAP1" + res.to_bytes(8, "big") + nodes


def snap2(nodes: bytes, odds: Tuple[int, ...] = DEFAULT_ODDS, box: Optional[str] = None,
          res: int = METRES_OF_RES // 10) -> bytes:
    """A snapshot of version 2; a box is twelve bytes, as a hexadecimal text."""
    numbers = b"".join(number.to_bytes(4, "big", signed=True) for number in odds)
    window = b"\0" if box is None else b"\1" + data(box)
    return b"OCTSNAP2" + res.to_bytes(8, "big") + numbers + window + nodes
