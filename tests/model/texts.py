"""Texts of numbers and names, and the refusals."""
import re

METRES = re.compile(rb"-?[0-9]{1,7}(\.[0-9]{1,9})?")
SIGNED = re.compile(rb"-?[0-9]{1,7}")
DIGITS = re.compile(rb"[0-9]{1,7}")
LONG_DIGITS = re.compile(rb"[0-9]{1,18}")
NAME = re.compile(rb"[A-Za-z0-9_][A-Za-z0-9._-]{0,63}")


class Refused(Exception):
    """A number, a name and the fields of a refusal."""


def metres(word):
    """The nanometres that a word spells, or None."""
    if not METRES.fullmatch(word):
        return None
    whole, _, part = word.lstrip(b"-").partition(b".")
    size = int(whole) * 10**9 + int(part.ljust(9, b"0"))
    return -size if word.startswith(b"-") else size


def metres_text(size, places=9):
    """Metres of a whole number of units of 10^-places metres, without trailing zeros."""
    whole, part = divmod(abs(size), 10**places)
    decimals = f"{part:0{places}}".rstrip("0")
    text = f"{whole}.{decimals}" if decimals else str(whole)
    return "-" + text if size < 0 else text


def within(pattern, least, most):
    """The reading of a word of a pattern as a whole number in a range, or None."""

    def read(word):
        number = int(word) if pattern.fullmatch(word) else None
        return number if number is not None and least <= number <= most else None

    return read


def literally(*texts):
    """The reading of a word that is one of these."""
    return lambda word: word.decode() if word in map(str.encode, texts) else None


number = within(SIGNED, -1_000_000, 1_000_000)
turn = within(SIGNED, -32768, 32767)
depth = within(DIGITS, 0, 9_999_999)
own_hit = within(SIGNED, 1, 1_000_000)
own_miss = within(SIGNED, -1_000_000, -1)


def reach(word):
    """The range of a scan: "all", or a length that isn't negative."""
    if word == b"all":
        return "all"
    size = metres(word)
    return size if size is not None and size >= 0 else None


def name(word):
    return word.decode() if NAME.fullmatch(word) else None
