"""Times of clouds by the names of their files, and the units of times."""

import os
import re

from .errors import Unusable

NUMBER = re.compile(r"[0-9]+(?:\.[0-9]+)?")
ENDINGS = re.compile(r"(\.[A-Za-z]+)+$")
# How many digits a time has since 2001 in seconds, milliseconds, microseconds and nanoseconds.
SECONDS = 10
PARTS = {13: 1e3, 16: 1e6, 19: 1e9}
NANOSECONDS = 1e17
TIMES = "--times FILE gives times"


def seconds(time):
    """A time of a file or a name in seconds. One of 13, 16 or 19 digits before the point is in
    milliseconds, microseconds or nanoseconds, and so is any of 10^17 or more in the last ones."""
    if time >= NANOSECONDS:
        return time / 1e9
    return next((time / part for many, part in PARTS.items() if _has_digits(time, many)), time)


def _has_digits(time, many):
    return 10 ** (many - 1) <= time < 10**many


def shown(time):
    """A time in seconds as people read it."""
    return f"{time:.6f}".rstrip("0").rstrip(".")


def times_of(names):
    """The time in seconds of each name that has one, by the number that differs between names of
    one kind. Where it isn't clear which that is, or two have one time, that is Unusable."""
    kinds, found, taken = {}, {}, {}
    for name in names:
        kinds.setdefault(NUMBER.sub("0", _base(name)), []).append(name)
    for alike in kinds.values():
        found |= _times_of_kind(alike)
    for name, time in found.items():
        first = taken.setdefault(time, name)
        if first != name:
            said = f"its time, {shown(time)}, is that of {first} too"
            raise Unusable(f"{said} ({TIMES})", name)
    return found


def _base(name):
    return ENDINGS.sub("", os.path.basename(name))


def _times_of_kind(names):
    """The times of names that differ in nothing but numbers."""
    numbers = [NUMBER.findall(_base(it)) for it in names]
    columns = list(zip(*numbers))
    if not columns:
        return {}
    differing = [it for it in columns if len(set(it)) > 1]
    chosen = _chosen(differing or columns)
    if chosen is None:
        shown = " or ".join(it[0] for it in differing or columns)
        raise Unusable(f"which number is its time isn't clear: {shown} ({TIMES})", names[0])
    return {name: seconds(float(it)) for name, it in zip(names, chosen)}


def _chosen(columns):
    """The column of numbers that are times, or None where several may be."""
    if len(columns) == 1:
        return columns[0]
    stamps = [at for at, column in enumerate(columns) if all(map(_is_stamp, column))]
    if len(stamps) != 1:
        return None
    (at,) = stamps
    is_whole = any(len(it) == SECONDS for it in columns[at])
    # (what follows whole seconds may be their fraction, as in 1305031102_175304000)
    return None if is_whole and at + 1 < len(columns) else columns[at]


def _is_stamp(number):
    return "." in number or len(number) in (SECONDS, *PARTS)
