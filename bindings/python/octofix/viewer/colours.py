"""Colours of heights and classes."""

import numpy as np

from octofix.mapping.leaves import FREE, OCCUPIED, UNKNOWN

from . import looks

__all__ = ["by_class", "by_height"]

ANCHORS = np.array(looks.ANCHORS)
BY_CLASS = {UNKNOWN: (200, 200, 200), FREE: (255, 255, 255), OCCUPIED: (40, 40, 40)}
BACKGROUND = (255, 255, 255)
SEEN = (232, 236, 240)


def by_height(heights, lowest, highest):
    """Colours (n, 3), uint8, of heights: the lowest is violet, the highest yellow."""
    part = (np.asarray(heights) - lowest) / max(highest - lowest, 1)
    places = np.linspace(0, 1, len(ANCHORS))
    return np.stack([np.interp(part, places, it) for it in ANCHORS.T], axis=-1).round().astype("u1")


def by_class(classes):
    return np.array([BY_CLASS[it] for it in (UNKNOWN, FREE, OCCUPIED)], np.uint8)[classes]
