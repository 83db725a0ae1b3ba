"""Leaves and planes against a plain array of voxels."""

import unittest

import numpy as np

import octofix
from octofix.mapping import planes
from octofix.mapping.leaves import FREE, OCCUPIED, ORIGIN, UNKNOWN, Leaves, table_of
from octofix.mapping.morton import decode, encode

EDGE = 12
LOW = ORIGIN - EDGE // 2


def voxels_of(random, is_coarse):
    """Random classes in a cube, (EDGE, EDGE, EDGE), by blocks of 4 voxels where it is coarse."""
    many = EDGE // 4 if is_coarse else EDGE
    classes = random.integers(0, 3, (many, many, many))
    for axis in range(3):
        classes = np.repeat(classes, EDGE // many, axis)
    return classes


def leaves_of(classes):
    keys = np.argwhere(classes != UNKNOWN)
    found = classes[tuple(keys.T)].astype(np.int8)
    depths = np.full(len(keys), 16)
    return merged(Leaves.sorted(encode(keys + LOW), depths, found, 10**9))


def map_of(classes):
    world = octofix.Map(1)
    for one, number in ((FREE, -9), (OCCUPIED, 9)):
        world.set(world.centers(np.argwhere(classes == one) + LOW), number)
    return world


def merged(leaves):
    """The same in as few blocks as may be."""
    for depth in range(16, 0, -1):
        shift = 3 * (17 - depth)
        at = np.flatnonzero(leaves.depths == depth)
        blocks = (leaves.codes[at] >> shift) * 3 + leaves.classes[at]
        _, which, counts = np.unique(blocks, return_inverse=True, return_counts=True)
        joined = at[counts[which] == 8]
        first = joined[leaves.codes[joined] & ((1 << shift) - 1) == 0]
        rest = np.setdiff1d(np.arange(len(leaves)), joined)
        kept = np.concatenate([rest, first])
        depths = np.concatenate([leaves.depths[rest], leaves.depths[first] - 1])
        leaves = Leaves.sorted(leaves.codes[kept], depths, leaves.classes[kept], leaves.resolution)
    return leaves


def array_of(leaves, *box):
    """The voxels of leaves again, one by one, or those in a box of keys."""
    array = np.zeros((EDGE, EDGE, EDGE), int)
    for codes, classes in leaves.blocks(*box, chunk=100):
        array[tuple((decode(codes) - LOW).T)] = classes
    return array


class AgainstVoxels(unittest.TestCase):
    def setUp(self):
        random = np.random.default_rng(11)
        self.cases = [voxels_of(random, number % 2 == 0) for number in range(20)]
        self.cases.append(np.full((EDGE, EDGE, EDGE), FREE))
        self.random = random

    def test_blocks(self):
        for classes in self.cases:
            leaves = leaves_of(classes)
            np.testing.assert_array_equal(array_of(leaves), classes)
            self.assertEqual(leaves.count(OCCUPIED), (classes == OCCUPIED).sum())
            places = np.argwhere(classes < 9)
            came = leaves.class_at(encode(places + LOW))
            np.testing.assert_array_equal(came, classes.reshape(-1))
        self.assertLess(len(leaves), 700)

    def boxed(self, classes):
        """A random box, as keys, and the classes in it alone."""
        low = self.random.integers(0, EDGE, 3)
        high = np.minimum(low + self.random.integers(0, EDGE, 3), EDGE - 1)
        inside = np.zeros_like(classes)
        box = tuple(slice(a, b + 1) for a, b in zip(low, high))
        inside[box] = classes[box]
        return (low + LOW, high + LOW), inside

    def test_within(self):
        for classes in self.cases:
            box, inside = self.boxed(classes)
            part = leaves_of(classes).within(*box)
            np.testing.assert_array_equal(array_of(part), inside)

    def test_blocks_in_a_box(self):
        for classes in self.cases:
            box, inside = self.boxed(classes)
            leaves = leaves_of(classes).meeting(*box)
            came = array_of(leaves, *box)
            np.testing.assert_array_equal(came, inside)
            self.assertEqual(leaves.count_in(*box), (inside != UNKNOWN).sum())
            self.assertEqual(leaves.count(FREE, *box), (inside == FREE).sum())
            # (a greater one counts where it meets the box)
            coarse = leaves_of(classes).coarse(15).meeting(*box)
            found = [codes for codes, _ in coarse.blocks(*box, 15, chunk=7)]
            blocks = {tuple(it) for it in (decode(np.concatenate([[], *found]).astype(int)) >> 1)}
            low, high = (it >> 1 for it in box)
            keys = (np.argwhere(classes != UNKNOWN) + LOW) >> 1
            wanted = keys[((keys >= low) & (keys <= high)).all(axis=1)]
            self.assertEqual(blocks, {tuple(it) for it in wanted})
            self.assertEqual(coarse.count_in(*box, 15), len(blocks))

    def test_coarse(self):
        for classes in self.cases:
            blocks = classes.reshape(EDGE // 2, 2, EDGE // 2, 2, EDGE // 2, 2).max(axis=(1, 3, 5))
            wanted = blocks.repeat(2, 0).repeat(2, 1).repeat(2, 2)
            np.testing.assert_array_equal(array_of(leaves_of(classes).coarse(15)), wanted)

    def test_frontier(self):
        for classes in self.cases:
            around = np.pad(classes, 1)
            is_open = np.zeros(classes.shape, bool)
            for axis in range(3):
                for step in (-1, 1):
                    is_open |= np.roll(around, step, axis)[1:-1, 1:-1, 1:-1] == UNKNOWN
            box, inside = self.boxed(classes)
            for words, free in (((), classes == FREE), (box, inside == FREE)):
                came = np.zeros(classes.shape, bool)
                came[tuple((decode(leaves_of(classes).frontier(*words)) - LOW).T)] = True
                np.testing.assert_array_equal(came, is_open & free)

    def test_planes(self):
        low, high = np.full(3, LOW), np.full(3, LOW + EDGE - 1)
        for classes in self.cases:
            leaves = leaves_of(classes)
            plane = planes.band(leaves, low, high)
            np.testing.assert_array_equal(plane, classes.max(axis=2).T)
            with map_of(classes) as world:
                np.testing.assert_array_equal(planes.band_of(world, low, high), plane)
            is_there = classes == OCCUPIED
            tops = np.where(is_there.any(2), LOW + EDGE - 1 - is_there[..., ::-1].argmax(2), -1)
            came = planes.heights(leaves.of_class(OCCUPIED), low, high)
            np.testing.assert_array_equal(came, tops.T)

    def test_table(self):
        empty = np.zeros_like(self.cases[0])
        for first, second in zip([empty, *self.cases], [*self.cases, empty]):
            (low, high), inside = self.boxed(first)
            box = tuple(slice(a, b + 1) for a, b in zip(low - LOW, high - LOW))
            for words, part in (((), ...), ((low, high), box)):
                came = table_of(leaves_of(first), leaves_of(second), *words)
                for a, b in np.ndindex(3, 3):
                    wanted = ((first[part] == a) & (second[part] == b)).sum() * (a + b > 0)
                    self.assertEqual(came[a, b], wanted)


class Codes(unittest.TestCase):
    def test_bits(self):
        keys = np.array([[1, 0, 0], [0, 1, 0], [0, 0, 1], [2, 0, 0]])
        self.assertEqual(encode(keys).tolist(), [1, 2, 4, 8])
        self.assertEqual(encode(np.array([[65535, 65535, 65535]])).tolist(), [2**48 - 1])
        keys = np.random.default_rng(1).integers(0, 65536, (1000, 3))
        np.testing.assert_array_equal(decode(encode(keys)), keys)
