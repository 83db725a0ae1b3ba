"""PCD, the files of the Point Cloud Library: ascii, binary and binary_compressed."""

from dataclasses import dataclass

import numpy as np

from ..errors import Unusable, on_line
from ..files import expect_room
from ..kinds import cut_of
from ..memory import free_memory
from ..poses import Pose, numbers_of
from .cloud import RawCloud, only, stacked, xyz_of
from .columns import AXES, places_of
from .headers import count_of, header_lines
from .lzf import unpacked
from .tables import table_of

TYPES = {"F4", "F8", "I1", "I2", "I4", "I8", "U1", "U2", "U4", "U8"}
MOST_BYTES = 1 << 20
LARGEST_PAGE = 1 << 16
FORMS = ("ascii", "binary", "binary_compressed")


@dataclass
class _Header:
    """The fields as numpy's types with their lengths, where x, y and z are among them, and what
    else is said."""

    types: list
    repeats: list
    places: list
    points: int
    form: str
    viewpoint: Pose
    lines: int

    def ends_with_axis(self):
        """Whether the last number of a text is a coordinate."""
        return self.form == "ascii" and len(self.types) - 1 in self.places

    def layout(self):
        """x, y and z in a record, at their places."""
        sizes = [np.dtype(it).itemsize * many for it, many in zip(self.types, self.repeats)]
        return np.dtype({
            "names": AXES,
            "formats": [self.types[it] for it in self.places],
            "offsets": [sum(sizes[:it]) for it in self.places],
            "itemsize": sum(sizes),
        })  # fmt: skip


def read(name, content, reading):
    """One cloud, with the VIEWPOINT of the header as its pose where it isn't that of the origin."""
    header, start = _header_of(content, reading.columns)
    body = memoryview(content)[start:]
    points = {"ascii": _of_text, "binary": _of_records, "binary_compressed": _of_compressed}
    pose = None if header.viewpoint.is_identity() else header.viewpoint
    cut = cut_of(name, content) if header.ends_with_axis() else None
    return only(RawCloud(name, points[header.form](body, header), pose, cut=cut))


def _header_of(content, asked):
    lines, start = header_lines(content, "DATA")
    found = {}
    for it in lines:
        if it[1] and not it[1][0].startswith("#") and found.setdefault(it[1][0], it) is not it:
            raise Unusable(f"its header has {it[1][0][:40]} twice", line=it[0])
    for name in ("FIELDS", "SIZE", "TYPE", "POINTS"):
        if len(found.get(name, (0, []))[1]) < 2:
            raise Unusable(f"its header lacks {name}", line=len(lines))
    form_line, words, _ = found["DATA"]
    form = " ".join(words[1:])
    if form not in FORMS:
        said = f"DATA {form[:40]} isn't read, only {', '.join(FORMS)} are"
        raise Unusable(said, line=form_line)
    types, repeats, places = _fields_of(found, asked)
    points = _points_of(found)
    return _Header(types, repeats, places, points, form, _viewpoint(found), len(lines)), start


def _points_of(found):
    """How many points there are: POINTS, which WIDTH times HEIGHT has to be where they are said."""
    line, words, _ = found["POINTS"]
    points = count_of(words[1], "POINTS", line)
    if "WIDTH" in found:
        sides = [found.get(it, (line, [it, "1"], "")) for it in ("WIDTH", "HEIGHT")]
        width, height = (count_of(" ".join(it[1][1:]), it[1][0], it[0]) for it in sides)
        if width * height != points:
            said = f"WIDTH {width} times HEIGHT {height} isn't POINTS {points}"
            raise Unusable(said, line=line)
    return points


def _fields_of(found, asked):
    line, (_, *names), _ = found["FIELDS"]
    counts = found.get("COUNT", (line, ["COUNT"] + ["1"] * len(names), ""))
    repeats = [count_of(it, "COUNT", counts[0]) for it in counts[1][1:]]
    types = [kind + size for kind, size in zip(found["TYPE"][1][1:], found["SIZE"][1][1:])]
    lengths = {len(names), len(repeats), *(len(found[it][1]) - 1 for it in ("TYPE", "SIZE"))}
    if len(lengths) != 1 or not set(types) <= TYPES:
        said = "FIELDS, SIZE, TYPE and COUNT of its header don't fit together"
        raise Unusable(said, line=line)
    with on_line(line):
        places = places_of(names, len(names), asked, "FIELDS")
    if any(repeats[it] != 1 for it in places):
        raise Unusable("COUNT isn't 1 for x, y and z", line=counts[0])
    size = sum(int(kind[1:]) * many for kind, many in zip(types, repeats))
    if size > MOST_BYTES:
        raise Unusable(f"its points have {size} bytes each, and at most 2^20 are read", line=line)
    return ["<" + it.lower() for it in types], repeats, places


def _viewpoint(found):
    line, words, row = found.get("VIEWPOINT", (0, ["", *"0001000"], "0 0 0 1 0 0 0"))
    with on_line(line):
        numbers = numbers_of(words[1:], row)
        if len(numbers) != 7:
            raise Unusable(f"VIEWPOINT has 7 numbers, and here are {len(numbers)}")
        return Pose.read(numbers[:3], numbers[3:])


def _of_text(body, header):
    places = [sum(header.repeats[:it]) for it in header.places]
    points = table_of(bytes(body), places, header.lines + 1, width=sum(header.repeats))
    if len(points) != header.points:
        said = f"its data has {len(points)} lines, and {header.points} points are announced"
        raise Unusable(said)
    return points


def _of_records(body, header):
    layout = header.layout()
    size = header.points * layout.itemsize
    if len(body) < size or not _is_padding(body[size:]):
        announced = f"{header.points} points of {layout.itemsize} bytes are announced"
        raise Unusable(f"its data has {len(body)} bytes, and {announced}")
    return xyz_of(np.frombuffer(body, layout, header.points))


def _is_padding(rest):
    """Whether these are the zeros, up to a page of memory, that the Point Cloud Library may write
    behind data."""
    return len(rest) <= LARGEST_PAGE and not any(rest)


def _of_compressed(body, header):
    """The points of compressed data, in which all values of a field stand together."""
    if len(body) < 8:
        raise Unusable("its data ends before the two sizes")
    packed, plain = np.frombuffer(body, "<u4", 2).tolist()
    layout = header.layout()
    is_whole = len(body) >= 8 + packed and _is_padding(body[8 + packed :])
    if plain != header.points * layout.itemsize or not is_whole:
        raise Unusable(f"its data has {len(body)} bytes, which don't fit the sizes in it")
    expect_room(plain, free_memory() // 2)
    data = unpacked(body[8 : 8 + packed], plain)
    fields = ((layout.fields[it][0], layout.fields[it][1] * header.points) for it in AXES)
    return stacked([np.frombuffer(data, kind, header.points, start) for kind, start in fields])
