"""Which calls of a map ask others, that a class made of `Map` may replace."""

import pickle
import tempfile
import unittest
from pathlib import Path

import numpy as np

import octofix
from octofix import Event

HERE, AHEAD = (0.05, 0.05, 0.05), (1.05, 0.05, 0.05)
MANY = 1 << 17  # beams of a scan in parts
KEY = (32768, 32768, 32768)
MAKERS = {"from_bt", "from_file", "from_snapshot"}
CALLS = {
    it
    for it, call in vars(octofix.Map).items() | vars(octofix.Map.__base__).items()
    if not it.startswith("_") and callable(call) and it not in MAKERS
}


class Asked(octofix.Map):
    """A map that notes its calls, and which asked which others."""

    def __init__(self, *words, **settings):
        self.done, self.pairs, self.doing = set(), set(), []
        super().__init__(*words, **settings)


def noting(name):
    def do(self, *words, **named):
        self.done.add(name)
        self.pairs.update((it, name) for it in self.doing)
        self.doing.append(name)
        try:
            return getattr(octofix.Map, name)(self, *words, **named)
        finally:
            self.doing.pop()

    return do


for it in CALLS:
    setattr(Asked, it, noting(it))


def change(world):
    world.edit(HERE, Event.SET, 5)
    world.edit_box(HERE, AHEAD, Event.SET, 5)
    world.keep(HERE, AHEAD)
    world.set(HERE, 5)
    world.add(HERE, 5)
    world.hit(HERE)
    world.miss(HERE)
    world.forget(HERE)
    world.scan(AHEAD)
    world.scan_from(HERE, AHEAD)
    world.scan_nm([[2_000_000_000, 0, 0]])
    world.limit(HERE, AHEAD)
    world.scan_in_parts(np.tile(AHEAD, (MANY, 1)))
    world.no_limit()
    world.max_likelihood()
    world.refresh()
    world.prune()
    world.merge(world)
    world.track()
    world.changes()
    world.untrack()


def ask(world):
    for call in (world.get, world.classes, world.value_at, world.class_at, world.probabilities):
        call(HERE)
    for call in (world.cast, world.stop_at, world.list, world.grid):
        call(HERE, AHEAD)
    for call in (world.leaves, world.voxels, world.bounds, world.extent, world.counts):
        call()
    world.least_tree()
    world.keys(HERE)
    world.key_of(HERE)
    world.centers(KEY)
    world.middle(KEY)
    world.equals(world)


def keep(world, folder):
    world.save(folder / "map.bt")
    world.load(folder / "map.bt")
    world.snapshot(folder / "map.snap")
    world.restore(folder / "map.snap")
    world.load_bt(world.to_bt())
    world.load_snapshot(world.to_snapshot())
    octofix.Map.copy(world).close()
    for call in (world.copy, world.clone):
        call().close()


class Replaced(unittest.TestCase):
    def test_calls_that_ask_others(self):
        """They are those that the class tells, and none asks `edit`."""
        with tempfile.TemporaryDirectory() as folder:
            with Asked(0.1) as world:
                change(world)
                ask(world)
                keep(world, Path(folder))
                world.clear()
            self.assertIn("close", world.done)
        self.assertEqual(world.done, CALLS)
        self.assertEqual(world.pairs, {
            ("probabilities", "get"), ("key_of", "keys"), ("middle", "centers"),
            ("extent", "bounds"), ("save", "to_bt"), ("load", "load_bt"),
            ("snapshot", "to_snapshot"), ("restore", "load_snapshot"), ("merge", "prune"),
            ("scan_in_parts", "scan"), ("scan_in_parts", "centers"),
            ("scan_in_parts", "to_snapshot"),
        })  # fmt: skip

    def test_pickles_ask_none(self):
        with Asked(0.1) as world:
            data = pickle.dumps(world)
            self.assertEqual(world.done, set())
        # (what is asked before all is set would fail)
        with pickle.loads(data) as other:
            self.assertEqual(other.done, set())


if __name__ == "__main__":
    unittest.main()
