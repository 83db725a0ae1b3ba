"""PTS, the text of Leica's scanners: how many points there are, and then one in each line."""

from ..errors import Unusable
from ..kinds import cut_of, refuse_unread
from . import text
from .cloud import RawCloud, only
from .columns import AXES, places_of
from .headers import count_of
from .tables import table_of, words_of


def read(name, content, reading):
    """One cloud of x, y and z, which stand before an intensity and colours. Without a number of
    points it is any text."""
    refuse_unread(content)
    first, _, body = content.lstrip().partition(b"\n")
    words = first.decode("ascii", "replace").split()
    if len(words) != 1 or not body.strip():
        return text.read(name, content, reading)
    line = 1 + content[: len(content) - len(content.lstrip())].count(b"\n")
    many = count_of(words[0], "the number of points", line)
    row = body.lstrip().partition(b"\n")[0].decode("utf-8", "replace")
    width = max(len(words_of(row, None)), len(AXES))
    columns = places_of([], width, reading.columns or ["1", "2", "3"], "a line")
    points = table_of(body, columns, line + 1, width=width)
    if len(points) != many:
        raise Unusable(f"its data has {len(points)} lines, and {many} points are announced")
    cut = cut_of(name, content) if width - 1 in columns else None
    return only(RawCloud(name, points, cut=cut))
