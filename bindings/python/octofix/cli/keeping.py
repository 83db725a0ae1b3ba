"""What a run has done when a fault ends it, kept under the names of its files and `.partial`."""

import os
import tempfile

from octofix import Refused
from octofix.io.errors import Unusable
from octofix.io.notes import say

from .outputs import opened, put
from .standing import is_ordinary

ENDING = ".partial"


def keep(places, fill):
    """Writes what `fill` puts into files, by the words that the places, names with kinds, go by.
    Answers their names: in their own folders, which are made anew where they are gone, or where
    that fails in the current one, or among temporary files. None where nothing takes them."""
    places = {word: it for word, it in places.items() if is_ordinary(it[0])}
    for folder in (None, os.curdir, tempfile.gettempdir()) if places else ():
        tried = {word: (_name_in(folder, name), kind) for word, (name, kind) in places.items()}
        names = [name for name, _ in tried.values()]
        if len({*names}) == len(names) and _is_written(tried, fill):
            return names
    return []


def _name_in(folder, name):
    """The name for what is kept of a file: beside it, or in a folder."""
    at = name if folder is None else os.path.join(folder, os.path.basename(name))
    return os.path.normpath(at + ENDING)


def _is_written(places, fill):
    try:
        for name, _ in places.values():
            os.makedirs(os.path.dirname(name) or os.curdir, exist_ok=True)
        with opened([*places.values()]) as files:
            fill(dict(zip(places, files)))
            put(files, [*places.values()])
        return True
    except (OSError, Unusable, Refused, MemoryError):
        return False


def told(fault, said):
    """The fault with what is said of files that are kept, in one line where that can be."""
    if isinstance(fault, OSError) and fault.filename is not None:
        fault = Unusable(fault.strerror or str(fault), fault.filename)
    if isinstance(fault, MemoryError):
        fault = Unusable("memory ran out")
    if isinstance(fault, Unusable):
        fault.why = f"{fault.why}; {said}"
    else:
        say(said)
    return fault
