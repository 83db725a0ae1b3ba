"""Threads that each do all items of one row, in its order."""

import threading
from collections import deque

# How much may wait for the slowest thread, beside one item.
MOST_WAITING = 1 << 21


class Crew:
    """Does each item in each thread, with a task of the thread's own, and then what each thread
    does last. What one of these raises ends all threads, and is raised by the next call."""

    def __init__(self, tasks, last=lambda number: None):
        """tasks: a function of an item for each thread; last: is told the thread's number."""
        self.last, self.is_closed, self.ended = last, False, 0
        self.moved = threading.Condition()
        self.items, self.waiting, self.finished = deque(), 0, []
        # How many items all threads have done, and how many each.
        self.gone, self.done = 0, [0] * len(tasks)
        self.fault, self.is_over = None, False
        self.threads = []
        for number, task in enumerate(tasks):
            how = {"name": f"crew {number}", "daemon": True}
            self.threads.append(threading.Thread(target=self._work, args=(number, task), **how))
            self.threads[-1].start()

    def put(self, item, size):
        """Gives an item of this size to the threads, once there is room for it."""
        with self.moved:
            self._wait(lambda: not self.items or self.waiting + size <= MOST_WAITING)
            self.items.append((item, size))
            self.waiting += size
            self.moved.notify_all()

    def close(self):
        """No more items come, so that a thread that has done all does what it does last."""
        with self.moved:
            self.is_closed = True
            self.moved.notify_all()

    def finish(self):
        """Waits until all threads have done what they do last."""
        with self.moved:
            self._wait(lambda: self.ended == len(self.done))

    def catch_up(self):
        """Waits until all threads have done one more item; False where none was left."""
        with self.moved:
            before = self.gone
            self._wait(lambda: not self.items or self.gone > before)
            return self.gone > before

    def take_finished(self):
        """The sizes of the items that all have done since this was asked last."""
        with self.moved:
            found, self.finished = self.finished, []
            return found

    def stop(self, fault=None):
        """Ends each thread after the item that it is doing."""
        with self.moved:
            self.fault, self.is_over = self.fault or fault, True
            self.moved.notify_all()

    def end(self):
        """Ends all threads, and waits for them."""
        self.stop()
        for it in self.threads:
            it.join()

    def _wait(self, has_come):
        self.moved.wait_for(lambda: self.is_over or has_come())
        if self.fault:
            raise self.fault

    def _work(self, number, task):
        try:
            while self._has_next(number):
                self._do_next(number, task)
            self._end(number)
        except BaseException as fault:
            self.stop(fault)

    def _has_next(self, number):
        """Waits for an item; False where all is over, or the thread has done the last one."""
        with self.moved:
            self._wait(lambda: self.is_closed or self._is_behind(number))
            return not self.is_over and self._is_behind(number)

    def _is_behind(self, number):
        return self.done[number] < self.gone + len(self.items)

    def _do_next(self, number, task):
        with self.moved:
            item, _ = self.items[self.done[number] - self.gone]
        task(item)
        with self.moved:
            self.done[number] += 1
            while self.gone < min(self.done):
                self._drop()
            self.moved.notify_all()

    def _end(self, number):
        if self.is_over:
            return
        self.last(number)
        with self.moved:
            self.ended += 1
            self.moved.notify_all()

    def _drop(self):
        """The first item, which all have done."""
        _, size = self.items.popleft()
        self.waiting -= size
        self.finished.append(size)
        self.gone += 1
