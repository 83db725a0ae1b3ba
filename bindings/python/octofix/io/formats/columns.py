"""Which columns of a cloud are x, y and z."""

from ..errors import Unusable

AXES = ("x", "y", "z")


def places_of(names, width, asked, holder):
    """Where x, y and z stand among the columns, or those that are asked for, by their names or by
    their numbers from 1. There are `width` columns, with these names or none; `holder` is what has
    them, for what is said of a fault."""
    names = [it.lower() for it in names]
    wanted = [it.lower() for it in asked or AXES]
    if lacking := [it for it in wanted if not _is_number(it) and it not in names]:
        said = f"no column has the name {lacking[0]!r}" if asked else None
        raise Unusable(said or f"{holder} lacks {', '.join(lacking)} (--columns)")
    if twice := [it for it in wanted if names.count(it) > 1]:
        raise Unusable(f"{holder} has the name {twice[0]} more than once (--columns)")
    places = [int(it) - 1 if _is_number(it) else names.index(it) for it in wanted]
    if beyond := [it + 1 for it in places if not 0 <= it < width]:
        raise Unusable(f"there is no column {beyond[0]}: {holder} has {width}")
    if twice := [it + 1 for it in places if places.count(it) > 1]:
        raise Unusable(f"x, y and z are three columns, and two of them are {twice[0]} (--columns)")
    return places


def _is_number(word):
    return word.isascii() and word.isdigit() and len(word) < 10
