"""What the compiled module owes: interrupts while it waits or works, memory, and interpreters."""
import ctypes
import gc
import re
import inspect
import signal
import subprocess
import sys
import threading
import time
import unittest
from pathlib import Path

import numpy as np
from holding import Held

import octofix
from octofix import CastKind, Closed, Interrupted, VoxelClass

MANY = np.random.default_rng(1).uniform(-4, 4, (300_000, 3))


class Came(BaseException):
    pass


class Waits(unittest.TestCase):
    def setUp(self):
        self.map = octofix.Map(0.1)
        self.addCleanup(self.map.close)
        before = signal.signal(signal.SIGINT, signal.default_int_handler)
        self.addCleanup(signal.signal, signal.SIGINT, before)

    def expect_free(self):
        self.map.set((0, 0, 0), 5)
        self.assertEqual(self.map.value_at((0, 0, 0)), 5)

    def interrupt(self, is_changing, call, error):
        """What a call raises that waits for another one when a Ctrl-C comes."""
        timer = threading.Timer(0.2, signal.raise_signal, (signal.SIGINT,))
        with Held(self.map, is_changing):
            timer.start()
            began = time.monotonic()
            with self.assertRaises(error) as came:
                call()
            self.assertLess(time.monotonic() - began, 5)
        timer.join()
        self.expect_free()
        return came.exception

    def test_a_question_that_waits(self):
        self.interrupt(True, lambda: self.map.get((0, 0, 0)), KeyboardInterrupt)

    def test_a_change_that_waits(self):
        self.interrupt(False, lambda: self.map.hit((0, 0, 0)), KeyboardInterrupt)

    def test_a_scan_that_waits(self):
        for points in ([(1, 0, 0)], MANY[:1000]):
            why = self.interrupt(False, lambda: self.map.scan(points), Interrupted)
            self.assertEqual((why.done, str(why)), (False, "the scan is not done"))
        self.assertEqual(self.map.counts().nodes, 17)  # (of the one voxel that was set)

    def test_a_scan_that_is_at_work(self):
        timer = threading.Timer(0.05, signal.raise_signal, (signal.SIGINT,))
        timer.start()
        with self.assertRaises(Interrupted) as came:
            self.map.scan(MANY)
        self.assertEqual((came.exception.done, str(came.exception)), (True, "the scan is done"))
        self.assertIsNone(came.exception.__cause__)
        timer.join()
        with octofix.Map(0.1) as whole:
            whole.scan(MANY)
            self.assertEqual(whole.to_snapshot(), self.map.to_snapshot())

    def test_a_handler_that_asks_while_a_change_waits(self):
        asked, held = [], Held(self.map, False)
        at = (0, 0, 0)
        before = signal.signal(signal.SIGALRM, lambda *_: asked.append(self.map.value_at(at)))
        self.addCleanup(signal.signal, signal.SIGALRM, before)
        with held:
            timers = [
                threading.Timer(0.2, signal.raise_signal, (signal.SIGALRM,)),
                threading.Timer(0.6, held.give_back),
            ]
            for it in timers:
                it.start()
            self.map.hit(at)
            for it in timers:
                it.join()
        self.assertEqual(asked, [None])
        self.expect_free()

    def test_what_another_thread_raises(self):
        for is_changing, call in ((True, self.map.class_at), (False, self.map.hit)):
            came = []

            def wait():
                try:
                    call((0, 0, 0))
                except Came as it:
                    came.append(it)

            with Held(self.map, is_changing):
                waiter = threading.Thread(target=wait)
                waiter.start()
                time.sleep(0.2)
                ctypes.pythonapi.PyThreadState_SetAsyncExc(
                    ctypes.c_ulong(waiter.ident), ctypes.py_object(Came))
                waiter.join(30)
                self.assertEqual(len(came), 1)
            self.expect_free()

    def test_a_finalizer_that_asks(self):
        """One that Python runs while another call waits or works."""
        asked = []

        class Asking:
            def __init__(self, world):
                self.itself, self.world = self, world

            def __del__(self):
                asked.append(self.world.value_at((0, 0, 0)))

        self.addCleanup(gc.set_threshold, *gc.get_threshold())
        gc.set_threshold(5)
        for _ in range(100):
            Asking(self.map)
            self.map.get(MANY[:300].tolist())
            self.map.set(MANY[:20], 5)
            self.map.scan(MANY[:20])
        gc.collect()
        self.assertEqual(len(asked), 100)


class SingleQuestions(unittest.TestCase):
    def setUp(self):
        self.map = octofix.Map(0.1, hit=100, miss=-30)
        self.addCleanup(self.map.close)

    def test_hits_and_misses(self):
        self.map.hit([(0, 0, 0), (1, 0, 0)])
        self.map.miss(np.zeros((3, 3)))
        self.assertEqual(self.map.get([(0, 0, 0), (1, 0, 0)]).tolist(), [10, 100])
        self.map.hit((2, 0, 0), lazy=True)
        self.assertTrue(self.map.stale)

    def test_hits_of_odds_that_a_snapshot_brought(self):
        with octofix.Map(0.1, hit=7, miss=-9) as other:
            self.map.load_snapshot(other.to_snapshot())
        self.map.hit((0, 0, 0))
        self.map.miss([(1, 0, 0)])
        self.assertEqual(self.map.get([(0, 0, 0), (1, 0, 0)]).tolist(), [7, -9])

    def test_a_value_and_a_class(self):
        self.map.set([(0, 0, 0), (1, 0, 0)], [5, -5])
        self.assertEqual(self.map.value_at((0, 0, 0)), 5)
        self.assertIs(self.map.class_at([0.05, 0.05, 0.05]), VoxelClass.OCCUPIED)
        self.assertIs(self.map.class_at(np.array([1.0, 0, 0])), VoxelClass.FREE)
        self.assertIs(self.map.class_at((2, 0, 0)), VoxelClass.UNKNOWN)
        self.assertIsNone(self.map.value_at((2, 0, 0)))
        self.assertEqual(self.map.value_at((1, 0, 0), 0), 5)
        self.assertEqual(self.map.value_at((1, 0, 0), depth=16), -5)

    def test_a_stop(self):
        self.map.set([(0, 0, 0), (0.1, 0, 0), (0.2, 0, 0)], [-5, -5, 5])
        here = (0.05, 0.05, 0.05)
        self.assertEqual(
            self.map.stop_at(here, (1, 0.05, 0.05)), (CastKind.HIT, (32770, 32768, 32768)))
        self.assertEqual(
            self.map.stop_at(here, (0.05, 0.15, 0.05)), (CastKind.UNKNOWN, (32768, 32769, 32768)))
        self.assertEqual(self.map.stop_at(here, (0.15, 0.05, 0.05)), (CastKind.CLEAR, None))
        self.assertEqual(
            self.map.stop_at(here, (0.05, 0.5, 0.05), ignore_unknown=True), (CastKind.CLEAR, None))
        self.assertIs(self.map.stop_at(here, (1, 0.05, 0.05)).kind, CastKind.HIT)

    def test_their_refusals(self):
        self.map.set((0, 0, 0), 5, lazy=True)
        near, far = (0, 0, 0), (9000, 0, 0)
        for call, said in (
            (lambda: self.map.value_at(far), "refused 24 Outside point 1"),
            (lambda: self.map.class_at(near, 17), "refused 25 BadDepth"),
            (lambda: self.map.class_at(near, 3), "refused 22 Stale"),
            (lambda: self.map.stop_at(far, near), "refused 24 Outside point 1"),
            (lambda: self.map.stop_at(near, far), "refused 24 Outside point 2"),
            (lambda: self.map.value_at([near, near]), "point is one point of three numbers"),
            (lambda: self.map.stop_at(near, []), "end is one point of three numbers"),
            (lambda: self.map.value_at((0, float("nan"), 0)),
             "point: row 0 isn't finite, or is out of range"),
        ):  # fmt: skip
            with self.assertRaises(ValueError) as came:
                call()
            self.assertEqual(str(came.exception), said)
        self.map.close()
        for call in (self.map.value_at, self.map.class_at, self.map.hit, self.map.keys):
            self.assertRaises(Closed, call, near)
        self.assertRaises(Closed, self.map.stop_at, near, near)

    def test_whole_nanometres(self):
        """They are the numbers of the call itself: a voxel ends before 100,000,000."""
        counted = self.map.scan_nm([[99_999_999, 0, 0], [100_000_000, 0, 0]], (0, 1, 2))
        self.assertEqual(counted, (2, 0))
        with octofix.Map(0.1) as other:
            other.scan_nm(np.array([[2 * 10**9, 0, 0]]), (50_000_000,) * 3, 10**9, lazy=True)
            self.assertEqual((other.stale, len(other.voxels("free"))), (True, 10))
            for points in ([[0.5, 0, 0]], [[1, 2]], "none"):
                self.assertRaises((TypeError, ValueError), other.scan_nm, points)
            with self.assertRaisesRegex(octofix.Refused, "47 BadArgument"):
                other.scan_nm(np.array([[0, 0, 2**64 - 1]], np.uint64))
            with self.assertRaisesRegex(octofix.Refused, "47 BadArgument range"):
                other.scan_nm([[0, 0, 1]], (0, 0, 0), -1)


class Arguments(unittest.TestCase):
    def setUp(self):
        self.map = octofix.Map(0.1)
        self.addCleanup(self.map.close)

    def test_words(self):
        for call, said in (
            (lambda: self.map.get(), "get() missing required argument 'points'"),
            (lambda: self.map.get(1, 2, 3), "get() takes at most 2 positional arguments (3 given)"),
            (lambda: self.map.get((0, 0, 0), deep=3),
             "get() got an unexpected keyword argument 'deep'"),
            (lambda: self.map.get((0, 0, 0), points=3),
             "get() got multiple values for argument 'points'"),
            (lambda: self.map.set((0, 0, 0), 5, True),
             "set() takes at most 2 positional arguments (3 given)"),
        ):  # fmt: skip
            with self.assertRaises(TypeError) as came:
                call()
            self.assertEqual(str(came.exception), said)

    def test_signatures_and_help(self):
        for name, it in vars(octofix.Map.__base__).items():
            if callable(it) and not name.startswith("_"):
                self.assertTrue(inspect.getdoc(it), name)
                self.assertEqual(list(inspect.signature(it).parameters)[:1], ["self"], name)
        self.assertEqual(str(inspect.signature(octofix.Map.scan)),
                         "(self, /, points, origin=(0, 0, 0), quaternion=(1, 0, 0, 0), range=None,"
                         " *, hit=None, miss=None, lazy=False)")  # fmt: skip

    def test_one_row_that_stands_for_many(self):
        """An array says so of itself; there is no memory for the points."""
        rows = np.broadcast_to(np.array([1.0, 2.0, 3.0]), (2**57, 3))
        for call in (self.map.hit, self.map.scan, lambda it: self.map.cast((0, 0, 0), it)):
            self.assertRaises(MemoryError, call, rows)

    def test_rows_at_odd_addresses(self):
        rows = np.zeros(20, [("head", "u1"), ("at", "<f8", 3)])
        rows["at"] = [1, 2, 3]
        self.map.hit(rows["at"])
        self.assertEqual(self.map.voxels().tolist(), [[32778, 32788, 32798]])

    def test_no_memory_is_lost(self):
        def used():
            # (statm doesn't count exactly, where a process goes from processor to processor)
            text = Path("/proc/self/smaps_rollup").read_text()
            return int(re.search(r"^Rss: +(\d+) kB", text, re.M)[1]) * 1024

        def do_all(count):
            for _ in range(count):
                with octofix.Map(0.1) as world:
                    for call in calls_of(world):
                        for points in FORMS:
                            try:
                                call(points)
                            except (ValueError, TypeError):
                                pass

        def is_lost():
            return min(bytes_more) >= 2**19 or min(objects_more) >= rounds / 2

        rounds, bytes_more, objects_more = 40, [2**63], [2**63]
        do_all(rounds)
        # (Python keeps some for itself, and less each time; what is lost is lost each time)
        for _ in range(15):
            if not is_lost():
                break
            gc.collect()
            before, objects = used(), sys.getallocatedblocks()
            do_all(rounds)
            gc.collect()
            bytes_more.append(used() - before)
            objects_more.append(sys.getallocatedblocks() - objects)
        self.assertFalse(is_lost(), (bytes_more, objects_more))


FORMS = [
    (1, 2, 3), [(1, 2, 3)] * 30, MANY[:300], MANY[:3].tolist(), (1, "x", 3), (float("nan"), 0, 0),
    (9000, 0, 0), MANY[:20].astype("f4"), None, [],
]  # fmt: skip


def calls_of(world):
    """All that takes points, in ways that end well and badly."""
    here = (0, 0, 0)
    return [
        world.get, world.classes, world.value_at, world.class_at, world.hit, world.scan, world.keys,
        lambda it: world.cast(it, here), lambda it: world.cast(here, it),
        lambda it: world.stop_at(it, here), lambda it: world.get(it, "deep"),
        lambda it: world.set(it, 5), lambda it: world.set(it, 10**7),
        lambda it: world.set(it, [5] * len(it)), lambda it: world.limit(here, it),
        lambda it: world.scan(it, quaternion=(1, 1, 1, 1), range=2.5),
        lambda it: world.scan(it, quaternion=(0, 0, 0, 0)), lambda it: world.scan_from(here, it),
        lambda it: world.edit_box(here, it, 1, 5), lambda it: world.grid(here, it),
        lambda it: world.keep(here, it), lambda it: world.merge(world, shift=it),
        lambda it: world.leaves(here, it), lambda it: world.list(here, it),
        lambda it: octofix.ray(0.1, here, it),
    ]  # fmt: skip


class Interpreters(unittest.TestCase):
    def test_another_interpreter_is_refused(self):
        code = (
            "import _xxsubinterpreters as it; there = it.create(isolated=%s)\n"
            "it.run_string(there, '''import sys\n"
            "try: from octofix import _native\n"
            "except ImportError as why: print(why)\n''')"
        )
        for isolated in (True, False):
            done = subprocess.run(
                [sys.executable, "-c", code % isolated], capture_output=True, text=True)
            if "No module named '_xxsubinterpreters'" in done.stderr:
                self.skipTest("this Python has other interpreters by another name")
            said = "octofix works in the main interpreter alone\n"
            self.assertEqual(done.stdout, said, done.stderr)

    def test_the_module_alone_makes_no_map(self):
        code = ("import importlib.util as u; s = u.spec_from_file_location('octofix._native', %r)\n"
                "m = u.module_from_spec(s); s.loader.exec_module(m)\n"
                "try: m.Map()\n"
                "except RuntimeError as why: print(why)")  # fmt: skip
        place = sys.modules["octofix._native"].__file__
        done = subprocess.run(
            [sys.executable, "-c", code % place], capture_output=True, text=True)
        self.assertEqual(done.stdout, "octofix._native is set up by octofix\n", done.stderr)


if __name__ == "__main__":
    unittest.main()
