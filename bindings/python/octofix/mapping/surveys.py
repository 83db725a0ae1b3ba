"""Where the origin of a map lies in the frame of a survey: a comment of its .bt file."""

import re
from decimal import Decimal

from octofix import Map
from octofix.io.errors import Unusable
from octofix.io.lengths import NANO, metres, nanometres

# A header has at most so many bytes.
HEADER = 1 << 16
LINE = re.compile(rb"(?m)^# origin(?: (-?\d{1,7}(?:\.\d{1,9})?)){3}\r?$")


class PlacedMap(Map):
    """A map and where its origin lies, as three whole nanometres, or None where nobody says."""

    origin = None


def origin_in(content):
    """The origin that a .bt file has in its header, or None."""
    head = content[:HEADER].partition(b"\ndata")[0]
    found = LINE.search(head)
    if not found:
        return None
    words = found[0].split()[2:]
    return tuple(int(Decimal(it.decode()) * NANO) for it in words)


def with_origin(content, origin):
    """The .bt file with a line of the origin, or as it is without one."""
    if origin is None:
        return content
    line = f"# origin {text_of(origin)}\n".encode()
    return content.replace(b"\nid ", b"\n" + line + b"id ", 1)


def text_of(origin):
    return " ".join(map(metres, origin))


def moved_origin(origin, moved):
    """Where the origin of a map lies that was moved to there, in nanometres, from another one's, or
    None; None for a map that wasn't moved and of which nobody says."""
    if origin is None and not any(moved):
        return None
    return tuple(int(a) + int(b) for a, b in zip(origin or (0, 0, 0), moved))


def expect_subtracted(said, lengths, name):
    """Unusable where the origin that a map has isn't what is subtracted from clouds, in metres."""
    if said and (lengths is None or said != tuple(nanometres(lengths).tolist())):
        raise Unusable(f"its origin isn't subtracted (--origin {text_of(said)})", name)


def the_one(said, asked, name):
    """The origin that a file says or that is said elsewhere; Unusable where these differ."""
    if said and asked and said != asked:
        raise Unusable(f"its origin lies at {text_of(said)}, and not at {text_of(asked)}", name)
    return said or asked
