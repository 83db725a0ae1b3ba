"""NumPy's .npz: a ZIP archive of arrays."""

import io
import zipfile

from ..errors import Unusable, failing_as
from ..files import expect_room
from ..memory import free_memory
from . import arrays
from .columns import AXES

ENDING = ".npy"


def read(name, content, reading):
    """One cloud of the array that is asked, or of the one that has x, y and z."""
    with failing_as("a ZIP archive of arrays"), zipfile.ZipFile(io.BytesIO(content)) as archive:
        names = [it for it in archive.namelist() if it.endswith(ENDING)]
        chosen = _chosen(archive, names, reading)
        expect_room(archive.getinfo(chosen).file_size, free_memory() // 2)
        packed = archive.read(chosen)
    return arrays.read_npy(name, packed, reading)


def _chosen(archive, names, reading):
    """The name in the archive of the array that is taken."""
    if not names:
        raise Unusable("it is a ZIP archive, and has no array of NumPy's in it")
    plain = ", ".join(it[: -len(ENDING)] for it in names)
    if reading.array is not None:
        asked = reading.array + ENDING
        if asked not in names:
            raise Unusable(f"it has no array {reading.array} (--array); it has {plain}")
        return asked
    fitting = [it for it in names if _fits(archive, it, reading.columns)] if names[1:] else names
    if len(fitting) != 1:
        said = "several" if fitting else "none"
        raise Unusable(f"{said} of its arrays can be x, y and z (--array NAME): {plain}")
    return fitting[0]


def _fits(archive, name, columns):
    """Whether an array has points by its shape and its fields."""
    with archive.open(name) as stream:
        shape, _, kind = arrays.layout_of(stream)
    if kind.names:
        return set(columns or AXES) <= set(kind.names)
    width = shape[1] if len(shape) == 2 else 0
    return kind.kind in "fiu" and (width == 3 or (columns is not None and width > 3))
