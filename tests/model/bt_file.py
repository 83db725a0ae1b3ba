"""The `.bt` file of the OctoMap library: written from classes, and read case by case."""
import itertools
import re

from texts import LONG_DIGITS, Refused, metres, metres_text
from world import Mixed, UNKNOWN, children, uniform

FIRST = b"# Octomap OcTree binary file"
FLOAT = b"# Octomap OcTree file"
ASIDE = b"# (feel free to add / change comments, but leave the first line as it is!)\n#\n"
MOST_HEADER = 65_536
BLANKS = b" \t"


def packed(codes):
    number = sum(code << (2 * index) for index, code in enumerate(codes))
    return number.to_bytes(2, "little")


def record(classes, depth=0):
    """A block as an entry of a record: a class, or a list of eight entries."""
    one = uniform(classes, depth)
    if one is not Mixed:
        return one or UNKNOWN
    return [record(part, depth + 1) for part in children(classes, depth)]


def flat(entries):
    """The bytes of a record and of those below it."""
    codes = [3 if isinstance(it, list) else it for it in entries]
    return packed(codes) + b"".join(map(flat, below(entries)))


def below(entries):
    """The records that a record holds."""
    return [it for it in entries if isinstance(it, list)]


def nodes(entries):
    """How many entries aren't unknown, over a record and those below it."""
    return sum(it != UNKNOWN for it in entries) + sum(map(nodes, below(entries)))


def records(entries):
    return 1 + sum(map(records, below(entries)))


def volume(entries, wanted, depth=0):
    """How many voxels of a class a record stands for."""
    span = 8 ** (15 - depth)
    inner = sum(volume(it, wanted, depth + 1) for it in below(entries))
    return span * sum(it == wanted for it in entries) + inner


def merged(entry):
    """The entry with each record of eight like entries replaced by that entry."""
    if not isinstance(entry, list):
        return entry
    entries = [merged(it) for it in entry]
    alike = not isinstance(entries[0], list) and entries.count(entries[0]) == 8
    return entries[0] if alike else entries


def root_of(entry):
    """The root's record, or None for the unknown world."""
    return None if entry == UNKNOWN else entry if isinstance(entry, list) else [entry] * 8


def text(edge, root):
    """The file of a root record, or of the unknown world."""
    size = 0 if root is None else 1 + nodes(root)
    header = b"id OcTree\nsize %d\nres %s\ndata\n" % (size, metres_text(edge).encode())
    return FIRST + b"\n" + ASIDE + header + (b"" if root is None else flat(root))


def of_classes(edge, classes):
    return text(edge, root_of(record(classes)))


def header_lines(data):
    """Each line after the first, without its ends, with where the next one begins."""
    end = data.find(b"\n") + 1
    while end:
        start, end = end, data.find(b"\n", end) + 1
        if end:
            yield data[start : end - 1].removesuffix(b"\r").strip(BLANKS), end


def fields(data):
    """The words of the fields, and where the node data begins."""
    found = {}
    for line, end in header_lines(data):
        words = re.split(rb"[ \t]+", line)
        if words[0] == b"data":
            if end > MOST_HEADER:
                break
            return found, end
        if words[0] in (b"id", b"res", b"size"):
            found[words[0]] = words[1] if len(words) > 1 else b""
    if len(data) >= MOST_HEADER:
        raise Refused("15 HeaderTooLong")
    raise Refused("13 MissingField data")


def field(found, word):
    if word.encode() not in found:
        raise Refused(f"13 MissingField {word}")
    return found[word.encode()]


def record_at(data, at, depth=0):
    """The record that begins here, and where the next byte after it stands."""
    if at + 2 > len(data):
        raise Refused(f"17 Truncated at {len(data)}")
    number = int.from_bytes(data[at : at + 2], "little")
    codes = [number >> (2 * index) & 3 for index in range(8)]
    if depth == 15 and 3 in codes:
        raise Refused(f"16 TooDeep at {at}")
    entries, next_at = [], at + 2
    for code in codes:
        if code == 3:
            inner, next_at = record_at(data, next_at, depth + 1)
            entries.append(inner)
        else:
            entries.append(code)
    return entries, next_at


def read(data):
    """The edge, the root's record or None, and the node count of a file."""
    if not data.startswith(FIRST):
        raise Refused("11 FloatTree" if data.startswith(FLOAT) else "10 NotOctomap")
    found, at = fields(data)
    if field(found, "id") != b"OcTree":
        raise Refused("12 WrongId")
    edge = metres(field(found, "res"))
    if edge is None or not 10**5 <= edge <= 10**11:
        raise Refused("14 BadField res")
    if not LONG_DIGITS.fullmatch(field(found, "size")):
        raise Refused("14 BadField size")
    said, root = int(found[b"size"]), None
    if said:
        root, at = record_at(data, at)
    if at < len(data):
        raise Refused(f"18 TrailingBytes at {at}")
    size = 0 if root is None else 1 + nodes(root)
    if size != said:
        raise Refused(f"19 SizeMismatch said {said} found {size}")
    return edge, root, size


def classes_of(entries, corner=(0, 0, 0), depth=0):
    """The class of each known voxel; of files without large leaves."""
    found, half = {}, 1 << (15 - depth)
    for index, it in enumerate(entries or []):
        low = tuple(c + half * (index >> axis & 1) for axis, c in enumerate(corner))
        if isinstance(it, list):
            found |= classes_of(it, low, depth + 1)
        elif it != UNKNOWN:
            assert half <= 32, "a leaf that is too large for this model"
            for voxel in itertools.product(*(range(c, c + half) for c in low)):
                found[voxel] = it
    return found
