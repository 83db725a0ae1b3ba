"""Several threads on one map."""
import gc
import os
import signal
import sys
import threading
import time
import unittest
import warnings
import weakref
from concurrent.futures import ThreadPoolExecutor
from functools import partial

import numpy as np
from holding import Held

import octofix

THREADS, ROUNDS = 8, 50


class Threads(unittest.TestCase):
    def test_edits_from_many_threads_all_count(self):
        with octofix.Map(0.1, max=1_000_000) as world:
            def work(_):
                for _ in range(ROUNDS):
                    world.add([[0, 0, 0], [1, 0, 0]], 1)
                    self.assertEqual(len(world.get([[0, 0, 0], [5, 5, 5]])), 2)
                    self.assertLessEqual(len(world.leaves()), 2)

            with ThreadPoolExecutor(THREADS) as pool:
                list(pool.map(work, range(THREADS)))
            self.assertEqual(world.get([1, 0, 0]).tolist(), [THREADS * ROUNDS])

    def test_single_edits_where_threads_take_turns_often(self):
        def work(_):
            for _ in range(5000):
                world.add((0, 0, 0), 1)
                world.value_at((0, 0, 0))

        self.addCleanup(sys.setswitchinterval, sys.getswitchinterval())
        sys.setswitchinterval(1e-5)
        with octofix.Map(0.1, max=1_000_000) as world:
            with ThreadPoolExecutor(4) as pool:
                list(pool.map(work, range(4)))
            self.assertEqual(world.value_at((0, 0, 0)), 20_000)

    def test_answers_are_those_of_one_moment(self):
        # each edit of the box changes all voxels, so a leaf and its fellows agree
        with octofix.Map(0.1) as world:
            world.edit_box((0, 0, 0), (0.7, 0.7, 0.7), octofix.Event.SET, 0)
            stop = threading.Event()

            def ask():
                while not stop.is_set():
                    self.assertEqual(len(world.voxels("known")), 512)
                    self.assertEqual(len(set(world.leaves().value.tolist())), 1)

            with ThreadPoolExecutor(THREADS) as pool:
                asking = [pool.submit(ask) for _ in range(THREADS - 1)]
                for number in range(ROUNDS):
                    world.edit_box((0, 0, 0), (0.7, 0.7, 0.7), octofix.Event.SET, number)
                stop.set()
                for it in asking:
                    it.result()

    def test_a_close_while_others_ask(self):
        for _ in range(ROUNDS):
            world = octofix.Map(0.1)
            world.set([[0, 0, 0]], 5)
            begun = threading.Barrier(THREADS)

            def ask():
                begun.wait()
                try:
                    while True:
                        self.assertEqual(world.get(np.zeros((300, 3))).max(), 5)
                except octofix.Closed:
                    return True

            with ThreadPoolExecutor(THREADS) as pool:
                asking = [pool.submit(ask) for _ in range(THREADS - 1)]
                begun.wait()
                world.close()
                self.assertTrue(all(it.result(timeout=60) for it in asking))

    def test_maps_that_are_merged_into_each_other(self):
        with octofix.Map(0.1) as one, octofix.Map(0.1) as two:
            one.set([[0, 0, 0]], 1)
            two.set([[1, 0, 0]], 2)

            def work(number):
                maps = (one, two) if number % 2 else (two, one)
                for _ in range(ROUNDS):
                    maps[0].merge(maps[1])

            with ThreadPoolExecutor(THREADS) as pool:
                merging = [pool.submit(work, number) for number in range(THREADS)]
                for it in merging:
                    it.result(timeout=60)
            self.assertEqual(one.to_snapshot(), two.to_snapshot())
            self.assertEqual(one.get([[0, 0, 0], [1, 0, 0]]).tolist(), [1, 2])

    def test_a_map_that_nobody_holds_gives_its_memory_back(self):
        def used():
            with open("/proc/self/statm") as file:
                return int(file.read().split()[1]) * 4096

        def make():
            world = octofix.Map(0.1)
            world.scan(np.random.default_rng(1).uniform(-4, 4, (3000, 3)))
            self.assertGreater(world.memory, 2**20)
            return weakref.ref(world)

        self.assertIsNone(make()())
        before = used()
        for _ in range(20):
            make()
        gc.collect()
        self.assertLess(used() - before, 2**22)


class Forks(unittest.TestCase):
    """The child of a fork has none of the other threads, which can give no lock back there."""

    def setUp(self):
        self.world = octofix.Map(0.1)
        self.addCleanup(self.world.close)
        self.world.set([0, 0, 0], 5)

    def in_child(self, work, is_changing):
        """What the work answers in a child that is forked while another thread does a call."""
        with Held(self.world, is_changing):
            answers, said = os.pipe()
            with warnings.catch_warnings():
                warnings.simplefilter("ignore", DeprecationWarning)  # (3.12 warns of threads)
                child = os.fork()
            if child == 0:
                signal.alarm(10)
                try:
                    os.write(said, repr(work()).encode())
                    os._exit(0)
                finally:
                    os._exit(1)
        os.close(said)
        with open(answers) as file:
            found = file.read()
        self.assertEqual(os.waitpid(child, 0)[1], 0)
        return found

    def test_while_a_thread_asks(self):
        def work():
            self.world.set([1, 0, 0], 7)
            return self.world.get([[0, 0, 0], [1, 0, 0]]).tolist()

        self.assertEqual(self.in_child(work, False), "[5, 7]")
        self.assertEqual(self.world.get([1, 0, 0]).tolist(), [octofix.UNKNOWN])

    def test_while_a_thread_changes_the_map(self):
        def work():
            with octofix.Map(0.1) as other:
                calls = self.world.leaves, partial(other.merge, self.world), self.world.close
                for call in calls:
                    with self.assertRaisesRegex(RuntimeError, "forked while another thread"):
                        call()
                self.world = None  # (what isn't whole isn't closed)
                other.set([0, 0, 0], 3)
                return other.get([0, 0, 0]).tolist()

        self.assertEqual(self.in_child(work, True), "[3]")
        self.assertEqual(self.world.get([0, 0, 0]).tolist(), [5])

    def test_while_a_thread_waits(self):
        with Held(self.world, False):
            waiter = threading.Thread(target=self.world.set, args=((1, 0, 0), 7))
            waiter.start()
            time.sleep(0.1)
            self.assertEqual(self.in_child_alone(), "[5]")
        waiter.join()
        self.assertEqual(self.world.get([1, 0, 0]).tolist(), [7])

    def in_child_alone(self):
        answers, said = os.pipe()
        child = os.fork()
        if child == 0:
            signal.alarm(10)
            self.world.set((2, 0, 0), 9)
            os.write(said, repr(self.world.get((0, 0, 0)).tolist()).encode())
            os._exit(0)
        os.close(said)
        with open(answers) as file:
            found = file.read()
        self.assertEqual(os.waitpid(child, 0)[1], 0)
        return found


class Lock(unittest.TestCase):
    def setUp(self):
        self.world = octofix.Map(0.1)
        self.addCleanup(self.world.close)

    def started(self, call, *words):
        """A thread that does a call, which waits by then."""
        thread = threading.Thread(target=call, args=words)
        thread.start()
        time.sleep(0.2)
        return thread

    def test_readers_come_in_side_by_side(self):
        with Held(self.world, False), Held(self.world, False):
            self.assertIsNone(self.world.value_at((0, 0, 0)))

    def test_a_writer_is_alone(self):
        for first, second in ((True, False), (True, True), (False, True)):
            with self.subTest(first=first, second=second):
                order, held = [], Held(self.world, first)
                with held:
                    def use():
                        (self.world.hit if second else self.world.value_at)((0, 0, 0))
                        order.append("second")

                    thread = self.started(use)
                    order.append("first")
                    held.give_back()
                    thread.join(30)
                self.assertEqual(order, ["first", "second"])

    def test_a_waiting_writer_goes_before_new_readers(self):
        order, held = [], Held(self.world, False)

        def read():
            # (1 where the writer has been there)
            order.append(self.world.value_at((0, 0, 0)))

        with held:
            writer = self.started(self.world.set, (0, 0, 0), 1)
            reader = self.started(read)
            self.assertEqual(order, [])
            held.give_back()
            for it in (writer, reader):
                it.join(30)
        self.assertEqual(order, [1])

    def test_a_writer_is_not_starved(self):
        stop, points = threading.Event(), np.zeros((20_000, 3))

        def ask():
            while not stop.is_set():
                self.world.get(points)

        asking = [threading.Thread(target=ask) for _ in range(4)]
        for it in asking:
            it.start()
        began = time.monotonic()
        for _ in range(20):
            self.world.hit((0, 0, 0))
        took = time.monotonic() - began
        stop.set()
        for it in asking:
            it.join()
        self.assertLess(took, 10)

    def test_an_error_leaves_it_free(self):
        for call in (self.world.get, self.world.classes, self.world.hit, self.world.scan):
            for points in ((9000, 0, 0), (float("nan"), 0, 0), "points"):
                with self.assertRaises((ValueError, TypeError)):
                    call(points)
        self.world.set((0, 0, 0), 5)
        self.assertEqual(self.world.value_at((0, 0, 0)), 5)


if __name__ == "__main__":
    unittest.main()
