"""LAS and LAZ, the files of laser scanners from the air, by the library laspy."""

import io

import numpy as np

from ..errors import failing_as
from ..files import expect_room
from ..memory import free_memory
from ..optional import needed
from .cloud import RawCloud, only, stacked
from .columns import places_of


def read(name, content, reading):
    """One cloud of all points, in the metres that scale and offset of the header make of them."""
    laspy = needed("laspy", "a LAS file")
    places_of(("x", "y", "z"), 3, reading.columns, "a point")
    with failing_as("a LAS file"), laspy.open(io.BytesIO(content)) as file:
        header = file.header
        # (what LAZ packed may be many times as large)
        expect_room(header.point_count * header.point_format.size, free_memory() // 2)
        found = file.read()
        axes = [np.asarray(it, float) for it in (found.x, found.y, found.z)]
        return only(RawCloud(name, stacked(axes)))
