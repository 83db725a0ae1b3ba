"""Who does the steps: this process, processes of this machine, the workers of a scheduler of Dask,
or any other executor of concurrent.futures. Names and counts alone go through it."""

from __future__ import annotations

import concurrent.futures as futures
import contextlib
import errno
import logging
import multiprocessing
import os
import re
import signal
import threading
import time
from typing import Any, Callable, Iterable, Iterator

from octofix.io.errors import Unusable
from octofix.io.notes import say
from octofix.io.optional import needed

from .errors import BadTiles, Lost

Task = Callable[..., dict[str, Any]]
Heard = Callable[[str, Any, dict[str, Any], int, int], None]

ATTEMPTS = 3
# How long nothing may end, in seconds, and in the longest times of a task until now, before what is
# being done is given to other workers, too.
PATIENCE, TIMES = 60.0, 4
# How long a scheduler that is gone is waited for, and how long one that wasn't there yet.
RETURN, COME = 600.0, 10.0
_SIGNALS = {signal.SIGINT, signal.SIGTERM, signal.SIGHUP}
# What no other worker can do either.
_FINAL = (errno.ENOSPC, errno.EDQUOT, errno.EFBIG, errno.EROFS, errno.EACCES, errno.EPERM)


class Engine:
    """An executor that may be lost, and opened again."""

    def __init__(self, executor: futures.Executor) -> None:
        self.executor = executor

    def again(self, why: Lost) -> None:
        """Opens another executor; BadTiles where there is none."""
        raise BadTiles(f"{why}; what is done is kept, and the same call goes on with it")

    def close(self) -> None:
        """Ends what is being done at once, where that is this engine's."""


class Here(futures.Executor):
    """Does each task at once, in this process."""

    def submit(self, function, /, *words, **named):
        future: futures.Future = futures.Future()
        try:
            future.set_result(function(*words, **named))
        except Exception as fault:
            future.set_exception(fault)
        return future


class Processes(Engine):
    """So many processes of this machine, which end with this one."""

    def __init__(self, count: int) -> None:
        self._count, self._losses = count, 0
        self._open()

    def _open(self) -> None:
        # (by a fork, since this process has one thread until now; what it begins has its own ears)
        context = multiprocessing.get_context("fork")
        before = signal.pthread_sigmask(signal.SIG_BLOCK, _SIGNALS)
        try:
            ends = context.Pipe(duplex=False)
            pool = futures.ProcessPoolExecutor(
                self._count, mp_context=context, initializer=_begin_worker, initargs=ends
            )
            super().__init__(pool)
            self._end = ends[1]
            self.executor.submit(int)
        finally:
            signal.pthread_sigmask(signal.SIG_SETMASK, before)

    def again(self, why: Lost) -> None:
        self._losses += 1
        if self._losses >= ATTEMPTS:
            said = f"processes ended {self._losses} times (is there memory for --jobs?)"
            raise BadTiles(f"{said}; what is done is kept, and the same command goes on with it")
        say("a process ended, and its work is done again")
        self.close()
        self._open()

    def close(self) -> None:
        self._end.close()
        self.executor.shutdown(wait=False, cancel_futures=True)


def _begin_worker(ending: Any, end: Any) -> None:
    """Leaves signals to the process that began this one, with which this one ends."""
    end.close()
    signal.signal(signal.SIGINT, signal.SIG_IGN)
    signal.signal(signal.SIGHUP, signal.SIG_IGN)
    signal.signal(signal.SIGTERM, signal.SIG_DFL)
    signal.pthread_sigmask(signal.SIG_UNBLOCK, _SIGNALS)

    def wait() -> None:
        with contextlib.suppress(EOFError, OSError):
            ending.recv()
        os._exit(1)

    threading.Thread(target=wait, daemon=True).start()


class Scheduler(Engine):
    """The workers of a scheduler of Dask, by its address."""

    def __init__(self, address: str) -> None:
        self._distributed = needed("distributed", "--scheduler")
        if not re.fullmatch(r"([a-z]+://)?[^/]+:\d+", address):
            raise BadTiles(f"{address!r} is no address of a scheduler, as tcp://head:8786")
        self._address, self._client = address, None
        # (its client tells of each connection that is lost, many lines long)
        logging.getLogger("distributed").setLevel(logging.CRITICAL)
        if not self._connect(COME):
            raise BadTiles(f"there is no scheduler at {address}")

    def _connect(self, patience: float) -> bool:
        until = time.monotonic() + patience
        while True:
            left = until - time.monotonic()
            try:
                self._client = self._distributed.Client(
                    self._address, timeout=max(min(left, 10), 1), set_as_default=False
                )
            except (OSError, futures.TimeoutError):
                if left < 1:
                    return False
                time.sleep(0.5)
            else:
                super().__init__(self._client.get_executor(pure=False))
                return True

    def again(self, why: Lost) -> None:
        say(f"the scheduler {self._address} is gone, and waited for")
        self.close()
        if not self._connect(RETURN):
            said = f"the scheduler {self._address} is gone"
            raise BadTiles(f"{said}; what is done is kept, and the same command goes on with it")

    def close(self) -> None:
        with contextlib.suppress(Exception):
            self._client.close(timeout=5)


@contextlib.contextmanager
def closing(engine: Engine) -> Iterator[Engine]:
    try:
        yield engine
    finally:
        engine.close()


def each(engine: Engine, task: Task, folder: str, run: str, jobs: Iterable, told: Heard) -> None:
    """Does a task for all jobs, and tells of each that is done, once. What can't be used ends all;
    another fault is tried again, mostly elsewhere."""
    left = dict.fromkeys(jobs, 0)
    count = len(left)

    def done(job: Any, what: dict[str, Any]) -> None:
        del left[job]
        told(task.__name__, job, what, count - len(left), count)

    while left:
        try:
            _Round(engine.executor, task, (folder, run), left, done).do()
        except Lost as why:
            engine.again(why)


class _Round:
    """One try to do what is left, by an executor that may be lost."""

    def __init__(self, executor, task: Task, place, left: dict[Any, int], done) -> None:
        self.executor, self.task, self.place = executor, task, place
        self.left, self.done = left, done
        self.waiting: dict[futures.Future, Any] = {}
        self.moved, self.longest = time.monotonic(), 0.0

    def do(self) -> None:
        try:
            # (a copy: where it is done at once, it is no longer left)
            for job in list(self.left):
                self._submit(job)
                if isinstance(self.executor, Here):
                    self._take(set(self.waiting))
            while self.left:
                self._take(self._wait())
        finally:
            # (a pool of processes cancels by itself, and falls over what others cancelled)
            if not isinstance(self.executor, futures.ProcessPoolExecutor):
                for it in self.waiting:
                    it.cancel()

    def _submit(self, job: Any) -> None:
        try:
            self.waiting[self.executor.submit(self.task, *self.place, job)] = job
        except (RuntimeError, OSError) as why:  # (it is closed)
            raise Lost(str(why)) from None

    def _wait(self) -> set[futures.Future]:
        """What ended; what is being done is given out once more where nothing has for long."""
        patience = max(PATIENCE, TIMES * self.longest)
        left = max(self.moved + patience - time.monotonic(), 0)
        ended, _ = futures.wait(self.waiting, left, return_when=futures.FIRST_COMPLETED)
        if not ended and len(self.waiting) < 2 * len(self.left):
            for job in [it for it in self.left if [*self.waiting.values()].count(it) < 2]:
                self._submit(job)
        if not ended:
            self.moved = time.monotonic()
        return ended

    def _take(self, ended: set[futures.Future]) -> None:
        for future in ended:
            job = self.waiting.pop(future)
            if job in self.left:
                self._judge(future, job)

    def _judge(self, future: futures.Future, job: Any) -> None:
        if future.cancelled():
            raise Lost("workers are gone")
        fault = future.exception()
        if fault is None:
            what = future.result()
            self.longest = max(self.longest, what["seconds"])
            self.moved = time.monotonic()
            self.done(job, what)
            return
        if isinstance(fault, (futures.BrokenExecutor, futures.CancelledError)):
            raise Lost("workers are gone")
        self.left[job] += 1
        if _is_final(fault) or self.left[job] >= ATTEMPTS:
            raise _told(fault, job)
        self._submit(job)


def _is_final(fault: BaseException) -> bool:
    is_final = isinstance(fault, OSError) and fault.errno in _FINAL
    return is_final or isinstance(fault, (Unusable, ImportError))


def _told(fault: BaseException, job: Any) -> BaseException:
    """The fault, in a line where it is one of the engine's."""
    if isinstance(fault, ModuleNotFoundError):
        return BadTiles(f"a worker has no module {fault.name}, or another one than this process")
    if type(fault).__name__ == "KilledWorker":
        return BadTiles(f"workers ended as they did {job} (is there memory for it?)")
    return fault
