"""Morton codes: bit j of x, y and z of a key is bit 3j, 3j + 1 and 3j + 2 of its code."""

import numpy as np

STEPS = (
    (32, 0x001F00000000FFFF),
    (16, 0x001F0000FF0000FF),
    (8, 0x100F00F00F00F00F),
    (4, 0x10C30C30C30C30C3),
    (2, 0x1249249249249249),
)


def encode(keys):
    """The codes of (n, 3) keys from 0 to 65535, as int64."""
    codes = np.zeros(len(keys), np.int64)
    for axis in range(3):
        spread = keys[:, axis].astype(np.int64)
        for shift, mask in STEPS:
            spread = (spread | spread << shift) & mask
        codes |= spread << axis
    return codes


def decode(codes):
    """The (n, 3) keys of codes, as int64."""
    keys = np.empty((len(codes), 3), np.int64)
    for axis in range(3):
        packed = codes >> axis & STEPS[-1][1]
        for (shift, _), mask in zip(STEPS[::-1], [it for _, it in STEPS[-2::-1]] + [0xFFFF]):
            packed = (packed | packed >> shift) & mask
        keys[:, axis] = packed
    return keys
