"""Text with the coordinates of a point in each line: XYZ, CSV and the like."""

from __future__ import annotations

import re
from dataclasses import dataclass, field

from ..errors import Unusable, on_line
from ..kinds import cut_of
from ..poses import is_number, refuse_commas
from .cloud import RawCloud, only
from .columns import AXES, places_of
from .tables import table_of, words_of

COMMENT = re.compile(r"\s*(#+|//+)")
LONGEST_LINE = 1 << 16


def read(name, content, reading):
    """One cloud. Words are parted by blanks, commas or semicolons; lines that begin with '#' or
    '//' are comments, and one line before the numbers may name the columns, as one too. Three
    columns without names are x, y and z; of more it has to be said which they are."""
    cut = cut_of(name, content)
    content = content.removeprefix(b"\xef\xbb\xbf")
    front = _front_of(content)
    body = content[front.length :]
    if b"//" in body:
        body = re.sub(rb"(?m)^[ \t]*//.*", b"", body)
    asked = reading.columns
    columns, notes = _asked(front, asked) if asked else _columns(front)
    # (whoever asks for columns knows that lines may have words beyond them)
    width = None if asked else front.width
    points = table_of(body, columns, front.lines + 1, front.delimiter, width=width)
    return only(RawCloud(name, points, notes=notes, cut=cut))


@dataclass(frozen=True)
class _Heading:
    """A line that may name the columns: its number, its text, and its words in lower case."""

    line: int
    row: str
    words: list

    def names_axes(self):
        return set(AXES) <= set(self.words)

    def is_clear(self):
        """Whether it can't mean that three columns are others than x, y and z in turn."""
        return [it for it in self.words if it in AXES] == list(AXES)


@dataclass
class _Front:
    """What stands before the numbers: how long it is, the line of names and the comments, what
    parts words, and the first line of numbers with the number of its words."""

    length: int = 0
    lines: int = 0
    named: _Heading | None = None
    comments: list = field(default_factory=list)
    delimiter: str | None = None
    first: str = ""
    width: int = 3

    def heading(self):
        """The line that names the columns, or may be meant to: one that is no comment, or else the
        last comment with x, y and z, or with as many words as there are columns."""
        if self.named or not self.first:
            return self.named
        fitting = [it for it in self.comments if len(it.words) == self.width]
        naming = [it for it in fitting if it.names_axes()]
        unclear = [it for it in self.comments if it.names_axes() and not it.is_clear()]
        return next(iter([*naming[-1:], *unclear[-1:], *fitting[-1:]]), None)


def _front_of(content):
    front = _Front()
    while front.length < len(content):
        end = content.find(b"\n", front.length) + 1 or len(content)
        if end - front.length > LONGEST_LINE:
            raise Unusable("the line has more than 2^16 bytes", line=front.lines + 1)
        row = content[front.length : end].decode("utf-8", "replace").rstrip()
        plain = COMMENT.sub("", row, count=1) if COMMENT.match(row) else row
        if plain == row:
            with on_line(front.lines + 1):
                refuse_commas(row)
        front.delimiter = next((it for it in ";," if it in plain), None)
        words = [it.strip("\"'").lower() for it, _ in words_of(plain, front.delimiter)]
        found = _Heading(front.lines + 1, row, words)
        if plain != row:
            front.comments.append(found)
        elif row and not front.named and (found.names_axes() or not any(map(is_number, words))):
            front.named = found
        elif row:
            front.first, front.width = row, len(words)
            return front
        front.length, front.lines = end, front.lines + 1
    return front


def _columns(front):
    """The indices of x, y and z, and what is said of them; Unusable where it would be a guess."""
    heading = front.heading()
    if heading is None and front.width > len(AXES):
        said = f"which of its {front.width} columns are x, y and z isn't said"
        raise Unusable(f"{said} (as --columns 1,2,3): {front.first[:80]!r}", line=front.lines + 1)
    if heading is None or (front.first and front.width < len(AXES)):
        return [0, 1, 2], ()
    if not heading.names_axes() or (front.first and len(heading.words) != front.width):
        said = f"which of {front.width} columns are x, y and z isn't clear"
        raise Unusable(f"{said} (as --columns 1,2,3): {heading.row[:80]!r}", line=heading.line)
    with on_line(heading.line):
        found = places_of(heading.words, len(heading.words), None, "the line")
    said = ", ".join(str(it + 1) for it in found)
    is_plain = len(heading.words) == len(AXES)
    return found, () if is_plain else (f"columns {said} are x, y, z by their names",)


def _asked(front, asked):
    heading = front.heading()
    names = heading.words if heading and len(heading.words) == front.width else []
    return places_of(names, front.width, asked, "a line"), ()
