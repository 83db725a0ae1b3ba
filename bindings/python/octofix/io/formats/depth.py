"""Depth images: PNG of 16 bits, and NumPy's .npy, made points of a pinhole camera."""

from __future__ import annotations

import io
import warnings
from dataclasses import dataclass

import numpy as np

from ..errors import Unusable, failing_as
from ..files import expect_room
from ..memory import free_memory
from ..optional import needed
from .arrays import array_of, shape_of
from .cloud import RawCloud, only

PNG = b"\x89PNG"
# What Pillow calls a picture of 16 bits.
MODES = ("I", "I;16", "I;16B")
ASK = "--camera FX FY CX CY makes points of a depth image"
AXES = "its points are along the camera's axes (x right, y down, z ahead), which --turn turns, too"


@dataclass(frozen=True)
class Camera:
    """The focal lengths and the centre of a pinhole camera in pixels, the middle of the first one
    at 0, 0; and how many units of depth are a metre, or None where that isn't said."""

    fx: float
    fy: float
    cx: float
    cy: float
    units: float | None = None

    def points(self, depths):
        """The points of an image, (rows x columns, 3) in metres, row by row. Where nothing was
        measured, that is 0 or less or no number, there is a point that isn't finite."""
        rows, columns = depths.shape
        if not (0 <= self.cx < columns and 0 <= self.cy < rows):
            centre = f"{self.cx:g} {self.cy:g}"
            raise Unusable(f"its {columns} x {rows} pixels haven't the centre {centre} (--camera)")
        is_seen = np.isfinite(depths) & (depths > 0)
        ahead = np.where(is_seen, depths, np.nan) / (self.units or 1)
        right = (np.arange(columns) - self.cx) / self.fx * ahead
        down = (np.arange(rows) - self.cy)[:, None] / self.fy * ahead
        return np.stack([right, down, ahead], axis=-1).reshape(-1, 3)


def read(name, content, reading):
    """One cloud, a point for each pixel."""
    if reading.camera is None:
        raise Unusable(f"it is a picture ({ASK})" if content.startswith(PNG) else ASK)
    depths = _picture(content) if content.startswith(PNG) else array_of(content)
    if depths.ndim != 2 or depths.dtype.kind not in "fiu":
        raise Unusable(f"{shape_of(depths)}, and a depth image is rows x columns of numbers")
    if depths.dtype.kind != "f" and reading.camera.units is None:
        said = "how many of its units are a metre isn't said"
        raise Unusable(f"{said} (--depth-scale: 1000 for millimetres, 5000 for TUM's)")
    return only(RawCloud(name, reading.camera.points(depths), notes=(AXES,), is_optical=True))


def _picture(content):
    """The pixels of a PNG of 16 bits of grey."""
    pictures = needed("PIL.Image", "a depth image in PNG")
    with warnings.catch_warnings(), failing_as("a PNG"):
        warnings.simplefilter("ignore")
        with pictures.open(io.BytesIO(content)) as picture:
            if picture.mode not in MODES:
                said = f"it is a picture of the mode {picture.mode}"
                raise Unusable(f"{said}, and a depth image has greys of 16 bits")
            width, height = picture.size
            expect_room(width * height * 32, free_memory() // 2)
            return np.asarray(picture).astype(np.uint16)
