"""Arrays in files: NumPy's .npy."""

import io
import math
import warnings

import numpy as np

from ..errors import Unusable, failing_as
from .cloud import RawCloud, only, xyz_of
from .columns import places_of

# Columns that are rather points of an array whose rows are x, y and z.
MANY = 16
HEADERS = {
    (1, 0): np.lib.format.read_array_header_1_0,
    (2, 0): np.lib.format.read_array_header_2_0,
}


def read_npy(name, content, reading):
    """One cloud of an (n, 3) array, of the columns that are asked of a wider one, or of records
    with the fields x, y and z or those that are asked."""
    array = array_of(content)
    if array.dtype.names:
        return only(RawCloud(name, _of_records(array, reading.columns)))
    if array.ndim != 2 or array.shape[1] < 3 or array.dtype.kind not in "fiu":
        raise Unusable(f"{shape_of(array)}, and n x 3 numbers are needed")
    many, width = array.shape
    if many in (3, 4) and width >= MANY and not reading.columns:
        said = "it looks transposed, and n x 3 numbers are needed"
        raise Unusable(f"{shape_of(array)}: {said} (save array[:3].T)")
    if width > 3 and not reading.columns:
        said = f"{shape_of(array)}: which columns are x, y and z isn't said"
        row = ", ".join(map(str, array[:1].ravel().tolist()))
        raise Unusable(f"{said} (as --columns 1,2,3): {row[:80]}")
    columns = places_of([], width, reading.columns or ["1", "2", "3"], "its array")
    return only(RawCloud(name, array if columns == list(range(width)) else array[:, columns]))


def array_of(content):
    """The array of an .npy, which stays in the content."""
    stream = io.BytesIO(content)
    shape, is_by_columns, kind = layout_of(stream)
    with failing_as("an array of numbers"):
        many, start = math.prod(shape), stream.tell()
        size = len(content) - start
        if size != many * kind.itemsize:
            said = f"{many} values of {kind.itemsize} bytes are announced"
            raise Unusable(f"its data has {size} bytes, and {said}")
        if many == 0:
            return np.empty(shape, kind)
        values = np.frombuffer(content, kind, many, start)
        return values.reshape(shape, order="F" if is_by_columns else "C")


def layout_of(stream):
    """The shape of an .npy that begins in a stream, whether it stands by columns, and its type."""
    # (of a damaged header Python's parser raises and warns whatever it likes)
    with warnings.catch_warnings(), failing_as("an array of numbers"):
        warnings.simplefilter("ignore")
        version = np.lib.format.read_magic(stream)
        if version not in HEADERS:
            raise Unusable(f"its version {version[0]}.{version[1]} isn't read")
        shape, is_by_columns, kind = HEADERS[version](stream)
        if not _is_sound(kind) or min(shape, default=0) < 0:
            raise ValueError(f"of {kind}")
        return shape, is_by_columns, kind


def _is_sound(kind):
    """Whether the kind and its fields lie within its length. (numpy takes a text of -1 letters from
    a file, and then writes beyond what it has.)"""
    parts = [it[:2] for it in (kind.fields or {}).values()]
    parts += [(kind.base, 0)] if kind.shape else []
    return kind.itemsize > 0 and not kind.hasobject and all(
        0 <= it.itemsize <= kind.itemsize - start and (it.itemsize == 0 or _is_sound(it))
        for it, start in parts
    )  # fmt: skip


def shape_of(array):
    """What is said of an array's shape and kind."""
    return f"its array is {' x '.join(map(str, array.shape))} of {array.dtype}"


def _of_records(array, asked):
    names = array.dtype.names
    places = places_of(names, len(names), asked, "its record")
    chosen = [names[it] for it in places]
    if bad := [it for it in chosen if array.dtype[it].kind not in "fiu"]:
        raise Unusable(f"its field {bad[0]} is {array.dtype[bad[0]]}, and no number")
    return xyz_of(array, chosen)
