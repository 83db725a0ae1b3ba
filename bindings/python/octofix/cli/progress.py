"""How far a long run is, on standard error."""

import contextlib
import sys
import time

from octofix.io.notes import put
from octofix.io.optional import wanted


def is_terminal():
    return sys.stderr is not None and sys.stderr.isatty()


class Steps:
    """How many tasks of each kind are done, in a line that is written over."""

    def __init__(self, is_shown):
        self.is_shown, self.told = is_shown, time.monotonic()

    def show(self, what, done, total):
        if self.is_shown and (done == total or time.monotonic() - self.told > 0.5):
            self.told = time.monotonic()
            put(f"\r{what}: {done} of {total}   ")

    def close(self):
        if self.is_shown:
            put("\r" + " " * 40 + "\r")


class Progress:
    """A bar of `total` scans with scans/s, points/s and the time left; `total` may be None."""

    def __init__(self, total, is_shown):
        self.scans = self.points = 0
        self.began = self.told = time.monotonic()
        self.total, self.is_shown, self.bar = total, is_shown, None
        tqdm = wanted("tqdm") if is_shown else None
        if tqdm:
            self.bar = tqdm.tqdm(total=total, unit="scan", file=sys.stderr, leave=False)

    def step(self, points):
        """One more scan is done, of so many points."""
        self.scans += 1
        self.points += points
        if self.bar is not None:
            self.bar.set_postfix_str(f"{self.points / self.seconds():,.0f} points/s", False)
            with contextlib.suppress(OSError):
                self.bar.update()
        elif self.is_shown and time.monotonic() - self.told > 0.5:
            self.told = time.monotonic()
            put(f"\r{self.line()}")

    def seconds(self):
        return max(time.monotonic() - self.began, 1e-6)

    def rates(self):
        """The rates of the whole run."""
        seconds = self.seconds()
        return f"{self.scans / seconds:,.1f} scans/s, {self.points / seconds:,.0f} points/s"

    def line(self):
        left = ""
        if self.total:
            seconds = (self.total - self.scans) * self.seconds() / max(self.scans, 1)
            left = f", {seconds:.0f} s left"
        return f"{self.scans}/{self.total or '?'} scans, {self.rates()}{left}   "

    def close(self):
        if self.bar is not None:
            with contextlib.suppress(OSError):
                self.bar.close()
        elif self.is_shown:
            put("\r" + " " * 78 + "\r")
