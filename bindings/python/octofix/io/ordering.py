"""The order of clouds whose poses or times are given by count."""

import re

from .errors import Unusable

NUMBER = re.compile(r"([0-9]+(?:\.[0-9]+)?)")


def in_order(names, asked, is_by_count):
    """The names as they stand ("given"), or by the numbers in them ("natural"). Where nothing is
    asked both have to be the same order if something goes to the clouds by count."""
    natural = sorted(names, key=_numbered)
    if asked is None and is_by_count:
        for one, other in zip(names, natural):
            if one != other:
                said = f"poses go to clouds in turn, and {one} stands before {other}"
                raise Unusable(f"{said} (--order natural goes by numbers, --order given doesn't)")
    return natural if asked == "natural" else names


def _numbered(name):
    """The name's texts and numbers in turn: 2 stands before 10, and 1.25 before 1.5."""
    parts = NUMBER.split(name)
    for it in range(1, len(parts), 2):
        whole, _, fraction = parts[it].partition(".")
        parts[it] = (int(whole), fraction.rstrip("0"))
    return parts
