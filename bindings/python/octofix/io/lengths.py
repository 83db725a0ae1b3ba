"""Metres and whole nanometres."""

import numpy as np

NANO = 1_000_000_000
# A length of a script has at most seven digits before its point.
FARTHEST = 10**16


def nanometres(metres):
    """The nearest whole nanometres of an array of metres, below 10,000 km each."""
    return np.rint(np.asarray(metres, float) * NANO).astype(np.int64)


def metres(nanometres):
    """Whole nanometres as the shortest text of metres, exact: 1250000000 is '1.25'."""
    whole, part = divmod(abs(int(nanometres)), NANO)
    text = f"{whole}.{part:09}".rstrip("0").rstrip(".")
    return f"-{text}" if nanometres < 0 else text
