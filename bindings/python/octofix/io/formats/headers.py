"""Headers of lines before binary data."""

from ..errors import Unusable


def header_lines(content, last):
    """The lines (number, words, text) up to the first whose first word is `last`, and the place
    where the data begins."""
    found, start = [], 0
    while not found or found[-1][1][:1] != [last]:
        end = content.find(b"\n", start)
        if end < 0:
            raise Unusable(f"its header has no line {last}", line=len(found) + 1)
        row = content[start:end].decode("ascii", "replace").rstrip("\r")
        found.append((len(found) + 1, row.split(), row))
        start = end + 1
    return found, start


def count_of(word, what, line):
    """The number that a word of a header spells."""
    if not (word.isascii() and word.isdigit() and len(word) <= 15):
        raise Unusable(f"{what} is no count: {word[:40]!r}", line=line)
    return int(word)
