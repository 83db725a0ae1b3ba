"""Where a sensor stood and how it was turned."""

import math
import re
from dataclasses import dataclass

import numpy as np

from octofix import _turns

from .errors import Unusable, made_unusable

# Whole, or with a decimal comma.
NUMBER = re.compile(r"[-+]?[0-9]+(,[0-9]+([eE][-+]?[0-9]+)?)?")


@dataclass(frozen=True)
class Pose:
    """A place in metres, and a turn as a unit quaternion w, x, y, z."""

    at: np.ndarray
    turn: np.ndarray

    @staticmethod
    def of(at, quaternion):
        """The pose of seven numbers; a quaternion w, x, y, z of any length but 0."""
        with made_unusable():
            return Pose(*_turns.placed(at, quaternion))

    @staticmethod
    def of_rows(numbers):
        """The pose of the rows of a 3 x 4 or a 4 x 4 matrix."""
        with made_unusable():
            return Pose(*_turns.of_rows(numbers))

    @staticmethod
    def read(at, quaternion):
        """The same of numbers that somebody has written down: a quaternion that isn't of length 1
        has lost digits, or is none."""
        pose, length = Pose.of(at, quaternion), math.hypot(*quaternion)
        if abs(length - 1) > _turns.ROUNDING:
            raise Unusable(f"the quaternion has the length {length:.6g}, and not 1")
        return pose

    def equals(self, other):
        """Whether both are the same place and turn; a quaternion and its negative turn alike."""
        turns = other.turn, -other.turn
        is_turned_so = any(np.array_equal(self.turn, it) for it in turns)
        return is_turned_so and np.array_equal(self.at, other.at)

    def is_identity(self):
        return not self.at.any() and not self.turn[1:].any()

    def matrix(self):
        """The turn as a 3 x 3 matrix."""
        w, x, y, z = self.turn
        return np.array([
            [1 - 2 * (y * y + z * z), 2 * (x * y - w * z), 2 * (x * z + w * y)],
            [2 * (x * y + w * z), 1 - 2 * (x * x + z * z), 2 * (y * z - w * x)],
            [2 * (x * z - w * y), 2 * (y * z + w * x), 1 - 2 * (x * x + y * y)],
        ])  # fmt: skip

    def turned(self, points):
        """Points of the sensor's frame as seen from its place, along the axes of the map."""
        return points if not self.turn[1:].any() else points @ self.matrix().T

    def carrying(self, mount):
        """The pose of what is mounted so on something that stands here."""
        at = self.at + self.turned(mount.at[None])[0]
        return Pose.of(at, product(self.turn, mount.turn))

    def along(self, turn):
        """The same pose where the axes of both frames, that of the map and that of what stands
        here, are turned: `turn` is the Pose of the old axes in the new frame."""
        back = turn.turn * [1, -1, -1, -1]
        at = turn.turned(self.at[None])[0]
        return Pose.of(at, product(product(turn.turn, self.turn), back))

    def inverse(self):
        back = Pose(self.at, self.turn * [1, -1, -1, -1])
        return Pose(-back.turned(self.at[None])[0], back.turn)


IDENTITY = Pose.of((0, 0, 0), (1, 0, 0, 0))
# The axes of a camera (x right, y down, z ahead) as seen along x ahead, y to the left and z up.
CAMERA = Pose.of((0, 0, 0), (1, -1, 1, -1))


def product(p, q):
    """The quaternion of the turn q followed by p."""
    (a, b, c, d), (w, x, y, z) = p, q
    return np.array([
        a * w - b * x - c * y - d * z,
        a * x + b * w + c * z - d * y,
        a * y - b * z + c * w + d * x,
        a * z + b * y - c * x + d * w,
    ])  # fmt: skip


def of_angles(roll, pitch, yaw):
    """The quaternion of a roll, then a pitch, then a yaw, in radians."""
    around = [(math.cos(it / 2), math.sin(it / 2)) for it in (roll, pitch, yaw)]
    (wr, xr), (wp, yp), (wy, zy) = around
    return product((wy, 0, 0, zy), product((wp, 0, yp, 0), (wr, xr, 0, 0)))


def refuse_commas(row):
    """Unusable where a line has numbers with decimal commas, as 1,5;2,5;3,5."""
    words = re.split(r"[;\s]+", row.strip())
    if len(words) > 1 and "," in row and all(map(NUMBER.fullmatch, words)):
        raise _with_comma(next(it for it in words if "," in it))


def _with_comma(word, column=None):
    said = f"{word[:40]!r} has a decimal comma, and a point is read (tr ',' '.')"
    return Unusable(said, column=column)


def numbers_of(words, row):
    """The numbers that words of a line spell; what is none is named with its column."""
    found, start = [], 0
    for word in words:
        start = row.index(word, start)
        found.append(number_of(word, start + 1))
        start += len(word)
    return found


def number_of(word, column=None):
    """The number that a word spells, which begins in this column."""
    if "," in word and NUMBER.fullmatch(word):
        raise _with_comma(word, column)
    if not is_number(word):
        raise Unusable(f"{word[:40]!r} is no number", column=column)
    return float(word)


def is_number(word):
    try:
        float(word)
    except ValueError:
        return False
    return word.isascii() and "_" not in word
