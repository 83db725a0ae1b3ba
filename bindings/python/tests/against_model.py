#!/usr/bin/env python3
"""Random calls of a map beside the model, in all forms of input: whatever comes, both answer the
same, refuse it by the same words, and leave the same map.

    tests/against_model.py [--calls N] [--seed N]
"""
import argparse
import hashlib
import random
import sys
import warnings
from collections import deque
from decimal import Decimal
from fractions import Fraction

import model.map
import numpy as np

import octofix
from octofix import Event, Rule

NAN, INF = float("nan"), float("inf")
FACES = [3276.7999999999, -3276.8, 3276.8, 0.1 + 0.2, 5e-10, 1.5e-9, 2.5e-9, -0.0, 1e-300, 5e-324]
FAR = [NAN, INF, -INF, 1e7, -1e7, 1e300, 9999999.999999999, 10**30, -(2**63), 2**53 + 1, 10**400]
NONE = [None, "1", "x", 1j, Decimal("1.5"), Fraction(1, 3), [], (1,), np.datetime64(3, "s")]
NO_POINTS = [None, 1, 1.5, "abc", {}, {1, 2, 3}, range(3), b"abc", object, np.array(1.0)]
KEPT = 8  # calls that are told where two differ


class OwnArray(np.ndarray):
    pass


class OwnFloat(float):
    def __float__(self):
        return 99.0


class OwnInt(int):
    pass


class OwnList(list):
    pass


class Draws:
    """What calls are passed."""

    def __init__(self, seed):
        self.chance = random.Random(seed)

    def one(self, *ways):
        """One of pairs of a weight and what makes it."""
        chosen = self.chance.choices(ways, [weight for weight, _ in ways])[0][1]
        return chosen() if callable(chosen) else chosen

    def pick(self, *of):
        return self.chance.choice(of)

    def near(self):
        return self.chance.uniform(-3, 3)

    def number(self):
        near, whole = self.near, lambda: self.chance.randint(-3, 3)
        return self.one(
            (60, near), (10, whole), (5, lambda: round(near(), 1)),
            (3, lambda: np.float64(near())), (2, lambda: np.float32(near())),
            (2, lambda: np.int64(whole())), (2, lambda: np.array(near())),
            (2, lambda: self.pick(True, False)), (2, lambda: OwnFloat(near())),
            (1, lambda: OwnInt(2)), (2, lambda: self.pick(*FACES)), (2, lambda: self.pick(*FAR)),
            (1, lambda: self.pick(*NONE)),
        )  # fmt: skip

    def row(self, count=3, of=None):
        of = of or self.number
        return self.pick(tuple, list)(of() for _ in range(count))

    def point(self):
        return self.one((1, lambda: self.row(3, self.near)), (0.2, self.points))

    def points(self):
        count = self.pick(0, 1, 2, 3, 4, 5, 20, 40, 300)
        return self.one(
            (25, self.row), (5, lambda: self.row(self.pick(0, 1, 2, 4))),
            (15, lambda: self.pick(tuple, list)(self.row() for _ in range(min(count, 40)))),
            (5, lambda: [self.row(self.pick(3, 3, 3, 2)) for _ in range(min(count, 20))]),
            (10, lambda: [self.row(3, self.near) for _ in range(count)]),
            (45, lambda: self.array(count)),
            (2, lambda: self.pick(*NO_POINTS)), (1, lambda: OwnList([1, 2, 3])),
        )  # fmt: skip

    def array(self, count):
        """Rows of numbers, most of them good, in one of many kinds of array."""
        bad = [NAN, 1e8, -1e7, INF]
        of = self.pick(self.near, self.near, self.near, lambda: self.pick(self.near(), *bad))
        rows = np.array([[of() for _ in range(3)] for _ in range(count)]).reshape(-1, 3)
        whole = np.nan_to_num(rows, nan=1, posinf=2, neginf=3).clip(-9, 9)
        kinds = np.int8, np.int32, np.int64, np.uint16, bool, np.float16, np.longdouble
        fields = [("z", "f4"), ("x", "f8"), ("y", "f8"), ("i", "i4")]
        packed = [("head", "u1"), ("at", "<f8", 3)]
        return self.one(
            (30, rows), (12, lambda: rows.astype(np.float32)), (4, lambda: rows.astype(">f8")),
            (6, lambda: whole.astype(self.pick(*kinds))), (5, lambda: np.asfortranarray(rows)),
            (5, lambda: np.hstack([rows, rows])[:, ::2]), (5, lambda: np.vstack([rows] * 2)[::-2]),
            (3, lambda: rows[0] if count else rows), (3, lambda: rows.view(OwnArray)),
            (5, lambda: np.ma.masked_array(rows, mask=self.pick(False, rows > 2.9))),
            (3, lambda: memoryview(rows) if count else rows),
            (4, lambda: np.array([(*it, 1) for it in rows.tolist()], fields)),
            (2, lambda: np.array([(1, it) for it in rows.tolist()], packed)["at"]),
            (2, lambda: rows.T), (2, lambda: rows[None]), (2, lambda: rows.astype(complex)),
            (2, lambda: rows.astype(object)), (2, lambda: self.fixed(rows)),
            (2, lambda: np.broadcast_to(np.array([1.0, 2.0, 0.5]), (count, 3))),
        )  # fmt: skip

    def fixed(self, rows):
        rows.flags.writeable = False
        return rows

    def integer(self):
        return self.pick(
            5, -5, 850, -400, 0, 10**6, -(10**6), 10**6 + 1, 2**40, 2**80, -(2**80), True, 1.0, 0.5,
            "1", None, np.int32(7), np.int64(-7), np.uint8(3), np.array(4), np.float64(3),
            OwnInt(6), np.bool_(True), Event.SET,
        )  # fmt: skip

    def numbers(self, count):
        size = self.pick(count, count, count, count, 1, count + 1)
        rows = [self.pick(5, -5, 99, -2000) for _ in range(size)]
        kinds = list, tuple, np.array, lambda it: np.array(it, np.int32), np.float64
        return self.one(
            (5, lambda: self.pick(5, 850, -400, 10**6)), (3, self.integer),
            (2, lambda: self.pick(*kinds)(rows)),
        )

    def event(self):
        return self.pick(
            0, 1, 2, 3, *Event, *Event, -1, 4, 1.0, None, True, "SET", np.int64(1), [1, 2], 2**70)

    def depth(self):
        odd = 0, 3, 15, 17, -1, 15.5, 17.5, 2**70, True, None, np.int64(5), np.uint8(16), "3", NAN
        return self.one((5, 16), (9, lambda: self.pick(*odd)))

    def flag(self):
        return self.pick(False, True, False, 0, 1, None, "x", np.bool_(True), [], np.zeros(2))

    def length(self):
        return self.pick(
            None, 1.0, 2, 0.5, np.float32(1.1), -1, NAN, 1e7, INF, "1", np.float64(0.3), 0, True,
            Decimal(1))

    def turn(self):
        return self.one(
            (1, lambda: self.row(4, self.near)), (1, lambda: self.row(4)),
            (1, lambda: np.array(self.row(4, self.near))), (1, (0, 0, 0, 0)), (1, (2, 0, 0, 0)),
            (1, lambda: self.row(3)))

    def named(self, **ways):
        return {name: way() for name, way in ways.items() if self.chance.random() < 0.4}

    def maybe(self, way):
        return (way(),) if self.chance.random() < 0.4 else ()

    def kind(self):
        return self.pick("known", "occupied", "free")

    def shift(self):
        steps = self.row(3, lambda: self.chance.randint(-9, 9))
        return self.one((9, steps), (1, np.array(steps)), (1, self.point),
                        (1, lambda: self.row(3, self.integer)))

    def own_odds(self):
        return {
            "hit": lambda: self.pick(None, 5, -5, 0, 2**40, 1.5, np.int32(3)),
            "miss": lambda: self.pick(None, -5, 5, 0, "x"), "lazy": self.flag,
        }  # fmt: skip

    def corners(self):
        low = self.row(3, self.near)
        high = [it + self.chance.uniform(-0.1, 0.8) for it in low]
        return self.one((4, lambda: (low, high)), (1, lambda: (self.point(), self.point())))

    def call(self):
        """The name of a call, with its words."""
        points = self.points()
        rows = isinstance(points, (list, tuple)) or getattr(points, "ndim", 0)
        count = len(points) if rows else 1
        lazy = self.named(lazy=self.flag)
        odds, flag, length = self.own_odds(), self.flag, self.length
        return self.one(
            (20, lambda: ("get", (points, *self.maybe(self.depth)), {})),
            (10, lambda: ("classes", (points, *self.maybe(self.depth)), {})),
            (8, lambda: ("value_at", (self.point(), *self.maybe(self.depth)), {})),
            (8, lambda: ("class_at", (self.point(), *self.maybe(self.depth)), {})),
            (12, lambda: ("cast", (points, self.points(), *self.maybe(flag)), {})),
            (8, lambda: ("stop_at", (self.point(), self.point(), *self.maybe(flag)), {})),
            (5, lambda: ("keys", (points,), {})),
            (10, lambda: ("edit", (points, self.event(), self.numbers(count)), lazy)),
            (5, lambda: ("set", (points, self.numbers(count)), lazy)),
            (5, lambda: ("add", (points, self.numbers(count)), lazy)),
            (3, lambda: ("forget", (points,), lazy)),
            (4, lambda: (self.pick("hit", "miss"), (points,), lazy)),
            (15, lambda: ("scan", (points,), self.named(
                origin=self.point, quaternion=self.turn, range=length, **odds))),
            (10, lambda: ("scan_from", (self.point(), points, *self.maybe(length)),
                          self.named(**odds))),
            (4, lambda: ("edit_box", (*self.corners(), self.event(), self.integer()), {})),
            (3, lambda: ("list", (*self.corners(), *self.maybe(self.depth)), {})),
            (2, lambda: ("leaves", (*self.corners(), self.kind()), {})),
            (2, lambda: (self.pick("leaves", "voxels", "bounds"), (), {"kind": self.kind()})),
            (2, lambda: ("grid", self.corners(), {})),
            (2, lambda: (self.pick("limit", "keep"), self.corners(), {})),
            (12, self.plain_call),
        )  # fmt: skip

    def plain_call(self):
        """A call without words, or the name of a property."""
        name = self.pick(
            "no_limit", "refresh", "refresh", "prune", "max_likelihood", "track", "track",
            "untrack", "changes", "changes", "counts", "least_tree", "to_bt", "to_snapshot",
            "odds", "limits", "stale", "tracked", "memory", "window", "clear", "ray", "merge",
            "load",
        )  # fmt: skip
        if name == "clear" and self.chance.random() < 0.6:
            name = "close" if self.chance.random() < 0.2 else "refresh"
        if name == "ray":
            return name, (self.pick(0.1, 0.5, 0, NAN, "x"), self.point(), self.point()), {}
        if name == "merge":
            return name, (self.pick(*Rule, *Rule, 3, True, 1.0, None), *self.maybe(self.shift)), {}
        if name == "load":
            return self.pick("load_bt", "load_snapshot"), (self.pick("whole", "part", "none"),), {}
        return name, (), {}


def shown(it):
    """All that is to be the same of an answer."""
    if isinstance(it, np.ndarray):
        return f"{type(it).__name__} {it.dtype} {it.shape} {it.flags.writeable} {it.tolist()}"
    if isinstance(it, tuple):
        return f"{type(it).__name__} {[shown(each) for each in it]}"
    if type(it).__name__ == "Blocks":
        return f"{shown(it.depth)} {shown(it.index)} {shown(it.value)} {it.resolution_nm}"
    return f"{type(it).__name__} {it!r}"


class Side:
    """The map of one of both, and another one to merge."""

    def __init__(self, module):
        self.module = module
        self.open(0.1)

    def open(self, res):
        settings = {"max_groups": 4000, "max_cells": 3000, "threshold": 5}
        self.map = self.module.Map(res, **settings)
        self.other = self.module.Map(res, **settings)
        self.other.set([[0, 0, 0], [1, 0, 0]], [7, -7])

    def do(self, name, words, named):
        """What a call answers or raises, as a text."""
        try:
            return shown(self.answer(name, words, named))
        except Exception as error:
            return f"{type(error).__name__}: {error} {getattr(error, 'fields', '')}"

    def answer(self, name, words, named):
        if name == "ray":
            return self.module.ray(*words)
        if name == "merge":
            return self.map.merge(self.other, *words)
        if name.startswith("load"):
            data = self.other.to_bt() if name == "load_bt" else self.other.to_snapshot()
            return getattr(self.map, name)({"whole": data, "part": data[:-2]}.get(*words, b""))
        found = getattr(self.map, name)
        return found(*words, **named) if callable(found) else found

    def snapshot(self):
        return hashlib.sha256(b"" if self.map.closed else self.map.to_snapshot()).hexdigest()


def compare(calls, seed):
    """Does calls on both sides; answers what differs, as lines."""
    draws, both = Draws(seed), (Side(octofix), Side(model.map))
    last = deque(maxlen=KEPT)
    for at in range(calls):
        if both[0].map.closed and draws.chance.random() < 0.2:
            res = draws.pick(0.1, 0.05, 1.0)
            for it in both:
                it.open(res)
        call = draws.call()
        last.append(f"{at} {call!r:.600}")
        came = [it.do(*call) for it in both]
        if at % 20 == 0:
            came = [f"{text}, and the map is {it.snapshot()}" for text, it in zip(came, both)]
        if came[0] != came[1]:
            return [*last, f"the map: {came[0]:.2000}", f"the model: {came[1]:.2000}"]
    return []


def main():
    parser = argparse.ArgumentParser(usage=__doc__.split("\n\n")[1].strip())
    parser.add_argument("--calls", type=int, default=6000)
    parser.add_argument("--seed", type=int, default=1)
    options = parser.parse_args()
    # (numpy warns of what it makes of odd numbers, where the module does them by itself)
    warnings.simplefilter("ignore")
    differing = compare(options.calls, options.seed)
    if differing:
        print(f"seed {options.seed}: the map and the model differ, after", *differing, sep="\n")
        sys.exit(1)
    print(f"{options.calls} calls answer as the model does")


if __name__ == "__main__":
    main()
