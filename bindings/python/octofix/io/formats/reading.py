"""Which reader takes a file."""

from __future__ import annotations

import contextlib
import gzip
import os
import re
import zlib
from dataclasses import dataclass, field

from ..errors import Unusable, failing_as
from ..files import GZIP, read_bytes
from ..kinds import LAS, ROS_BAG, refuse_empty, refuse_unread
from . import archives, arrays, bags, depth, graph, las, nodes, pcd, ply, pts, records, text
from .records import Records

READERS = {
    "pcd": pcd.read,
    "ply": ply.read,
    "text": text.read,
    "pts": pts.read,
    "npy": arrays.read_npy,
    "npz": archives.read,
    "depth": depth.read,
    "bin": records.read,
    "kitti": records.read_kitti,
    "nuscenes": records.read_nuscenes,
    "las": las.read,
    "log": nodes.read,
    "graph": graph.read,
}
FORMS = [*READERS, "bag"]
WITHOUT_COLUMNS = ("log", "graph", "depth", "bag")
NPY = rb"\x93NUMPY"
SIGNS = [
    (rb"(#[^\n]*\n\s*)*VERSION |# \.PCD|FIELDS ", "pcd"),
    (rb"ply\r?\n", "ply"),
    (NPY, "npy"),
    (rb"PK(\x03\x04|\x05\x06)", "npz"),
    (depth.PNG, "depth"),
    (LAS, "las"),
    (ROS_BAG, "bag"),
    # (each blank and each comment can be taken in one way alone, else this takes for ever)
    (rb"\s*(#[^\n]*\n\s*)*(?<![^\S\n])NODE\s", "log"),
]
# Of so many bytes the form is known.
HEAD = 1 << 16
BIN = r"\.bin(\.gz)?$"
ENDINGS = [
    (BIN, "bin"),
    (r"\.pts(\.gz)?$", "pts"),
    (r"\.graph(\.gz)?$", "graph"),
    (r"\.bag$", "bag"),
]


@dataclass(frozen=True)
class Reading:
    """How files are read: a form of FORMS or None for what the file itself shows, and the columns
    of x, y and z as --columns has them, or None; topic and the like are for bags; whether a file of
    no byte is a cloud of no point; the Records of a .bin, the name of an array of an .npz, and the
    Camera of depth images, or None. What was read for later is kept by the names of files."""

    form: str | None = None
    columns: list | None = None
    bag: bags.Topics = bags.Topics()
    allows_empty: bool = False
    records: Records | None = None
    array: str | None = None
    camera: depth.Camera | None = None
    kept: dict = field(default_factory=dict, compare=False)


def form_of(name, content):
    """The form of a file by its first bytes, or else its name; text where neither says."""
    found = next((form for sign, form in SIGNS if re.match(sign, content[:HEAD])), None)
    by_name = (form for ending, form in ENDINGS if re.search(ending, name.lower()))
    return found or next(by_name, "text")


def has_many(name, form=None):
    """Whether a file may have several clouds, by the form that is asked, its first bytes or its
    name; of what isn't an ordinary file by its name alone."""
    return (form or form_of(name, _head_of(name))) in ("log", "graph", "bag")


def _head_of(name):
    """The first bytes of a file, unpacked where it is gzip's; none where it can't be read."""
    if not os.path.isfile(name):
        return b""
    with contextlib.suppress(OSError, EOFError, zlib.error), open(name, "rb") as file:
        head = file.read(HEAD)
        if not head.startswith(GZIP):
            return head
        file.seek(0)
        return gzip.GzipFile(fileobj=file).read(HEAD)
    return b""


def is_bin(name):
    """Whether a file has raw records by its name."""
    return re.search(BIN, name.lower()) is not None


def is_bag(name, form=None):
    """Whether a file is a ROS bag, by the form that is asked, its name or its first bytes."""
    if form is not None or name.lower().endswith(".bag"):
        return form in (None, "bag")
    if not os.path.isfile(name):
        return False
    with contextlib.suppress(OSError), open(name, "rb") as file:
        return file.read(len(ROS_BAG)) == ROS_BAG
    return False


def clouds_in(name, reading):
    """Each RawCloud of a file in turn; Unusable where it can't be read."""
    try:
        form, clouds = _opened(name, reading)
        with failing_as(f"the form {form}"):
            yield from clouds
    except Unusable as why:
        raise why.named(name)


def clouds_again(name, reading):
    """Each RawCloud of a file that is read once more later; of a pipe the content is kept."""
    kept = {} if os.path.isfile(name) else {name: read_bytes(name)}
    reading.kept.update(kept)
    try:
        yield from clouds_in(name, reading)
    finally:
        reading.kept.update(kept)


def _expect_use(reading, form):
    """Unusable where something is asked of a form that says nothing of it."""
    for option, is_useless in (
        ("--columns", reading.columns and form in WITHOUT_COLUMNS),
        ("--array", reading.array is not None and form != "npz"),
        ("--camera", reading.camera is not None and form != "depth"),
    ):
        if is_useless:
            raise Unusable(f"{option} isn't for the form {form}")


def _opened(name, reading):
    """The form of a file, and an iterator of its clouds, which alone has the file's content."""
    form = reading.form
    if form is None and name.lower().endswith(".bag"):
        form = "bag"
    if form != "bag":
        content = reading.kept.pop(name) if name in reading.kept else read_bytes(name)
        if not reading.allows_empty:
            refuse_empty(content)
        form = form or form_of(name, content)
        form = "depth" if form == "npy" and reading.camera else form
        if form == "text":
            refuse_unread(content)
    _expect_use(reading, form)
    if form == "bag":
        if os.path.exists(name) and not os.path.isfile(name):
            raise Unusable("a ROS bag is read of a file, and not of a device or a pipe")
        if name != "-" and os.path.isfile(name):
            refuse_empty(os.path.getsize(name))
        return form, bags.read(name, reading.bag)
    with failing_as(f"the form {form}"):
        return form, READERS[form](name, content, reading)
