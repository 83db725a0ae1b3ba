"""PLY, the Stanford polygon files: ascii, and binary in both orders of bytes."""

from dataclasses import dataclass, field

import numpy as np

from ..errors import Unusable, on_line
from ..kinds import cut_of
from .cloud import RawCloud, only, xyz_of
from .columns import AXES, places_of
from .headers import count_of, header_lines
from .tables import table_of

TYPES = {"char": "i1", "short": "i2", "int": "i4", "float": "f4", "double": "f8"}
TYPES |= {"uchar": "u1", "ushort": "u2", "uint": "u4", "float32": "f4", "float64": "f8"}
TYPES |= {"int8": "i1", "int16": "i2", "int32": "i4", "uint8": "u1", "uint16": "u2"}
TYPES |= {"uint32": "u4"}
ORDERS = {"ascii": "", "binary_little_endian": "<", "binary_big_endian": ">"}
BYTE_ORDERS = {"<": "little", ">": "big"}


@dataclass
class _Element:
    """Records of one kind: the types of a property are one, or two of a list (number, values)."""

    name: str
    many: int
    line: int
    names: list = field(default_factory=list)
    types: list = field(default_factory=list)

    def has_lists(self):
        return any(len(it) > 1 for it in self.types)

    def size(self, properties=None):
        """The bytes of a record without lists, up to this many properties."""
        return sum(np.dtype(it[0]).itemsize for it in self.types[:properties])


def read(name, content, reading):
    """One cloud of the vertices."""
    lines, start = header_lines(content, "end_header")
    form, elements = _elements_of(lines)
    at = [it.name for it in elements].index("vertex")
    before, vertex, after = elements[:at], elements[at], elements[at + 1 :]
    with on_line(vertex.line):
        places = places_of(vertex.names, len(vertex.names), reading.columns, "its vertex")
    cut = None
    if form == "ascii":
        points = _of_text(content, start, len(lines), elements, vertex, places)
        # (what stands behind the coordinates isn't read)
        if len(vertex.names) - 1 in places and not any(it.many for it in after):
            cut = cut_of(name, content)
    else:
        start += sum(it.many * it.size() for it in before)
        points = _of_records(content, start, ORDERS[form], vertex, places)
        _check_end(content, start + vertex.many * vertex.size(), ORDERS[form], after)
    return only(RawCloud(name, points, cut=cut))


def _elements_of(lines):
    """The form, and the elements."""
    form, elements = None, []
    for line, words, _ in lines:
        if words[:1] == ["format"] and len(words) > 1:
            form = words[1]
            if form not in ORDERS:
                said = f"the format {form[:40]} isn't read, only {', '.join(ORDERS)} are"
                raise Unusable(said, line=line)
        elif words[:1] == ["element"] and len(words) == 3:
            many = count_of(words[2], "the number of elements", line)
            elements.append(_Element(words[1], many, line))
        elif words[:1] == ["property"] and len(words) > 2 and elements:
            elements[-1].names.append(words[-1])
            elements[-1].types.append(_types_of(words[1:-1], elements, line))
        elif words and words[0] not in ("ply", "comment", "obj_info", "end_header"):
            raise Unusable(f"{words[0][:40]!r} isn't of a header", line=line)
    if form is None:
        raise Unusable("its header has no line format", line=len(lines))
    if many := [it.name for it in elements].count("vertex") - 1:
        said = "two elements" if many > 0 else "no element"
        raise Unusable(f"it has {said} vertex", line=len(lines))
    return form, elements


def _types_of(words, elements, line):
    """The type of a property, or those of a list's number and values, of the last element."""
    is_list = words[0] == "list"
    if is_list and "vertex" not in [it.name for it in elements[:-1]]:
        raise Unusable("a property of the type list isn't read before or in vertex", line=line)
    types = [TYPES.get(it, "") for it in (words[1:] if is_list else words)]
    if len(types) != 1 + is_list or not all(types) or (is_list and types[0][0] == "f"):
        raise Unusable(f"a property of the type {' '.join(words)[:40]} isn't read", line=line)
    return types


def _of_text(content, start, header, elements, vertex, places):
    """The vertices among the lines of all elements."""
    body = content[start:].rstrip()
    inner = np.flatnonzero(np.frombuffer(body, np.uint8) == ord("\n"))
    begins = np.concatenate([[0], inner + 1, [len(body)]])
    came, wanted = (len(inner) + 1) * bool(body), sum(it.many for it in elements)
    if came != wanted:
        raise Unusable(f"its data has {came} lines, and {wanted} are announced")
    before = sum(it.many for it in elements[: elements.index(vertex)])
    rows = body[begins[before] : begins[before + vertex.many]]
    points = table_of(rows, places, header + before + 1, width=len(vertex.names))
    if len(points) != vertex.many:
        raise Unusable(f"{vertex.many - len(points)} lines of its vertices are blank")
    return points


def _of_records(content, start, order, vertex, places):
    layout = np.dtype({
        "names": AXES,
        "formats": [order + vertex.types[it][0] for it in places],
        "offsets": [vertex.size(it) for it in places],
        "itemsize": vertex.size(),
    })  # fmt: skip
    if len(content) - start < vertex.many * layout.itemsize:
        said = f"its data has {max(len(content) - start, 0)} bytes, and {vertex.many} vertices of"
        raise Unusable(f"{said} {layout.itemsize} bytes are announced")
    return xyz_of(np.frombuffer(content, layout, vertex.many, start))


def _check_end(content, at, order, elements):
    """Unusable where the data doesn't end with the last of the elements behind the vertices."""
    for it in elements:
        if not it.has_lists():
            at += it.many * it.size()
            continue
        alike = _many_alike(content, at, order, it)
        at += alike * (_end_of_lists(content, at, order, it) - at)
        for _ in range(it.many - alike):
            at = _end_of_lists(content, at, order, it)
            if at > len(content):
                break
    if at != len(content):
        more = f"{len(content) - at} bytes more" if at < len(content) else "fewer bytes"
        raise Unusable(f"its data has {more} than are announced")


def _many_alike(content, at, order, element):
    """How many records, the first and those right behind it, have lists as long as the first has:
    of a mesh of triangles all."""
    size = _end_of_lists(content, at, order, element) - at
    many = min(element.many, (len(content) - at) // size)
    if not many:
        return 0
    records = np.frombuffer(content, np.uint8, many * size, at).reshape(many, size)
    are_alike = np.ones(many, bool)
    for place, width in _numbers_of_lists(content, at, order, element):
        numbers = records[:, place - at : place - at + width]
        are_alike &= (numbers == numbers[0]).all(axis=1)
    return many if are_alike.all() else int(are_alike.argmin())


def _numbers_of_lists(content, at, order, element):
    """Where the record at a place has the numbers of values of its lists, and their widths."""
    for kind in element.types:
        width = np.dtype(kind[0]).itemsize
        if len(kind) > 1:
            yield at, width
            number = int.from_bytes(content[at : at + width], BYTE_ORDERS[order])
            at += number * np.dtype(kind[1]).itemsize
        at += width


def _end_of_lists(content, at, order, element):
    """Where a record ends that has lists, each of which begins with the number of its values."""
    for kind in element.types:
        size = np.dtype(kind[0]).itemsize
        if len(kind) > 1:
            number = int.from_bytes(content[at : at + size], BYTE_ORDERS[order])
            at += number * np.dtype(kind[1]).itemsize
        at += size
    return at
