"""Files of points, written piece by piece, however many there are."""

import io
import os
import shutil

import numpy as np

from octofix.io.errors import Unusable
from octofix.mapping.leaves import CHUNK

from .outputs import written
from .standing import POINTS

# The fewest bytes that a number takes in each form.
FORMS = {"ply": 4, "pcd": 4, "xyz": 2, "csv": 2, "npy": 8}


def form_of(name, asked):
    """The form that is asked, or that the name's ending says."""
    form = asked or name.rsplit(".", 1)[-1].lower()
    if form not in FORMS:
        raise Unusable(f"--format is needed: the name has none of {', '.join(FORMS)}", name)
    return form


def write_points(name, form, columns, count, pieces, is_forced=False):
    """Writes pieces (n, len(columns)), which have so many rows together, as numbers of 32 bits
    (PLY, PCD) or 64 bits (.npy), or text."""
    _expect_room(name, count, count * len(columns) * FORMS[form])
    with written([(name, POINTS[form])], is_forced) as (file,):
        file.write(_header(form, columns, count))
        for piece in pieces:
            for low in range(0, len(piece), CHUNK):
                file.write(_body(form, piece[low : low + CHUNK]))


def _expect_room(name, count, size):
    """Unusable where a file has no room for so many bytes, before all room is filled."""
    is_file = os.path.isfile(name) or not os.path.exists(name)
    folder = os.path.dirname(os.path.realpath(name))
    if name == "-" or not is_file or not os.path.isdir(folder):
        return
    room = shutil.disk_usage(folder).free
    if size > room:
        said = f"{count} points take {size} bytes or more, and there is room for {room}"
        raise Unusable(f"{said} (--depth and --box take fewer)", name)


def points_file(form, columns, piece):
    """The file of one piece."""
    return _header(form, columns, len(piece)) + _body(form, piece)


def _body(form, piece):
    if form in ("ply", "pcd"):
        return piece.astype("<f4").tobytes()
    if form == "npy":
        return piece.astype("<f8").tobytes()
    ends = ["," if form == "csv" else " "] * (piece.shape[1] - 1) + ["\n"]
    words = np.stack([_spelled(*it) for it in zip(piece.T, ends)], axis=1)
    return "".join(words.ravel().tolist()).encode()


def _spelled(column, end):
    """Each number as text with what stands behind it. Those that stand more than once, as the
    coordinates of voxels do, are spelled once."""
    bits, places = np.unique(np.ascontiguousarray(column, "f8").view("i8"), return_inverse=True)
    words = [f"{it:.9f}".rstrip("0").rstrip(".") + end for it in bits.view("f8").tolist()]
    return np.array(words, object)[places]


def _header(form, columns, count):
    many = len(columns)
    if form == "ply":
        properties = "".join(f"property float {it}\n" for it in columns)
        front = "ply\nformat binary_little_endian 1.0\n"
        return f"{front}element vertex {count}\n{properties}end_header\n".encode()
    if form == "pcd":
        front = "# .PCD v0.7 - Point Cloud Data file format\nVERSION 0.7\n"
        fields = f"FIELDS {' '.join(columns)}\nSIZE{' 4' * many}\nTYPE{' F' * many}\n"
        size = f"COUNT{' 1' * many}\nWIDTH {count}\nHEIGHT 1\nVIEWPOINT 0 0 0 1 0 0 0\n"
        return f"{front}{fields}{size}POINTS {count}\nDATA binary\n".encode()
    if form == "npy":
        return _npy_header((count, many))
    return f"{','.join(columns)}\n".encode() if form == "csv" else b""


def _npy_header(shape):
    file = io.BytesIO()
    form = {"descr": "<f8", "fortran_order": False, "shape": shape}
    np.lib.format.write_array_header_1_0(file, form)
    return file.getvalue()
