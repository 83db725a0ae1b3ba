"""Raw records of numbers (.bin), in which nothing says how many stand in one."""

from dataclasses import dataclass

import numpy as np

from ..errors import Unusable
from ..lengths import FARTHEST, NANO
from .cloud import RawCloud, only
from .columns import AXES, places_of

BRIGHTEST = 255
MOST_COLUMNS = 1 << 16
ASK = "--columns-of-bin N says how many columns it has, as 6, or 6d of doubles"


@dataclass(frozen=True)
class Records:
    """The names of numbers in a record, or of its first ones, and how many there are, of a kind."""

    width: int
    kind: str = "<f4"
    names: tuple = ()

    def size(self):
        return self.width * np.dtype(self.kind).itemsize

    def table(self, content):
        """The records as rows."""
        if len(content) % self.size():
            said = f"its {len(content)} bytes are no whole number of records"
            raise Unusable(f"{said} of {self.size()} bytes")
        return np.frombuffer(content, self.kind).reshape(-1, self.width)

    def fits(self, content):
        """Whether content can be such records, by its length, its points and their intensities."""
        if len(content) % self.size():
            return False
        rows = self.table(content)
        with np.errstate(invalid="ignore"):
            is_near = (np.abs(rows[:, :3]) < FARTHEST / NANO).all()
            is_intensity = (rows[:, 3] >= 0) & (rows[:, 3] <= BRIGHTEST)
        return bool(is_near and is_intensity.all() and np.isfinite(rows).all())


KITTI = Records(4, names=(*AXES, "intensity"))
NUSCENES = Records(5, names=(*AXES, "intensity", "ring"))


def read(name, content, reading):
    """One cloud of the records that are asked, or of those of KITTI or nuScenes where the content
    fits one of them alone."""
    return _cloud(name, content, reading, reading.records or _records_of(content))


def read_kitti(name, content, reading):
    """One cloud of records x, y, z, intensity, each of four bytes, the lowest first."""
    return _cloud(name, content, reading, KITTI)


def read_nuscenes(name, content, reading):
    """One cloud of records x, y, z, intensity, ring, as those of KITTI."""
    return _cloud(name, content, reading, NUSCENES)


def _records_of(content):
    fitting = [it for it in (KITTI, NUSCENES) if it.fits(content)]
    if len(fitting) == 1 or not content:
        return fitting[0]
    if fitting:
        said = "its records may be KITTI's of 4 numbers or nuScenes' of 5"
    elif any(len(content) % it.size() == 0 for it in (KITTI, NUSCENES)):
        said = "its numbers can't be KITTI's or nuScenes' (x, y, z, an intensity up to 255, ..)"
    else:
        said = f"its {len(content)} bytes are no whole number of records of 16 or 20 bytes"
    raise Unusable(f"{said}: {ASK}")


def _cloud(name, content, reading, records):
    rows, asked = records.table(content), reading.columns or _first(records)
    columns = places_of(records.names, records.width, asked, "a record")
    return only(RawCloud(name, rows[:, columns]))


def records_of(word):
    """The Records that a word asks for, as 6 or 6f for six numbers of four bytes, and 6d of eight;
    ValueError where it asks for none."""
    kinds = {"f": "<f4", "d": "<f8"}
    width = int(word[:-1] if word[-1:] in kinds else word)
    if not len(AXES) <= width < MOST_COLUMNS:
        raise ValueError
    return Records(width, kinds.get(word[-1], "<f4"))


def _first(records):
    """x, y and z, which stand first where nobody says otherwise."""
    return None if records.names else ["1", "2", "3"]
