"""What ends a call."""

from __future__ import annotations

import contextlib
from typing import Iterator

from octofix.io.errors import Unusable


class BadTiles(Unusable):
    """Why tiles can't be used or made, or a cloud can't be read, in one line: `why`, of the file
    `name` at `line` and `column`, each of which may be None.

    What raises it has left the tiles as they were."""


@contextlib.contextmanager
def as_bad_tiles() -> Iterator[None]:
    """Makes all that the tools can't use BadTiles."""
    try:
        yield
    except BadTiles:
        raise
    except Unusable as why:
        raise BadTiles(why.why, why.name, why.line, why.column) from why


class Lost(Exception):
    """Workers that are gone, and with them what they were doing."""
