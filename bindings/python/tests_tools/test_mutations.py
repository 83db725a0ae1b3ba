"""Damaged files of all kinds end in one line, with a status of the table, and touch no old file."""

import contextlib
import importlib.util
import os
import re
import shutil
import signal
import sys
import unittest
import warnings

import mutations
from running import InFolder, octofix, old

# More are tried by tests/tools_trials.py.
MANY = int(os.environ.get("OCTOFIX_TRIALS", "500"))
FIRST = int(os.environ.get("OCTOFIX_TRIALS_FROM", "0"))
LONGEST = 20
# What may be said beside a fault.
BESIDE = "^octofix: gap: |so the file may have been cut$"


class TooLongError(BaseException):
    """No Exception, so that nothing takes it for a fault of an input."""


@contextlib.contextmanager
def at_most(seconds):
    """Raises TooLongError in what takes longer."""

    def stop(*_):
        raise TooLongError(f"it takes more than {seconds} s")

    before = signal.signal(signal.SIGALRM, stop)
    signal.alarm(seconds)
    try:
        yield
    finally:
        signal.alarm(0)
        signal.signal(signal.SIGALRM, before)


def _outputs(sample):
    """The names of what a sample's command writes."""
    beside = ["out.yaml"] * (sample.output == "out.pgm")
    return [*filter(None, [sample.output]), *beside]


class Mutations(InFolder):
    def setUp(self):
        super().setUp()
        self.samples = mutations.samples(importlib.util.find_spec("rosbag") is not None)

    def test_whole(self):
        """The samples themselves are read, so that what is damaged is a good file."""
        for sample in self.samples:
            with self.subTest(sample.name):
                ran = self.run_on(sample, sample.content)
                self.assertIn(ran.status, (0, 3), ran.said)

    def test_damaged(self):
        for seed in range(FIRST, FIRST + MANY):
            sample = self.samples[seed % len(self.samples)]
            content = mutations.damaged(sample.content, seed, self.samples)
            with self.subTest(f"{seed}: {sample.name}"):
                self.judge(sample, self.run_on(sample, content))

    def run_on(self, sample, content):
        for name in os.listdir():
            shutil.rmtree(name) if os.path.isdir(name) else os.unlink(name)
        files = {**sample.beside, sample.name: content}
        files.update({it: old(it) for it in _outputs(sample)})
        for name, it in files.items():
            os.makedirs(os.path.dirname(name) or ".", exist_ok=True)
            with open(name, "wb") as file:
                file.write(it)
        self.names = {it.partition("/")[0] for it in files}
        if "rosbag" in sys.modules:
            # (it keeps types by their sums, and else no damaged definition would be looked at)
            sys.modules["rosbag"].bag._message_types.clear()
        with warnings.catch_warnings(record=True) as caught, at_most(LONGEST):
            warnings.simplefilter("always")
            output = ["-o", sample.output] if sample.output else []
            ran = octofix(*sample.words, *output)
        self.assertEqual([str(it.message) for it in caught], [])
        return ran

    def judge(self, sample, ran):
        kept = [f"{sample.output}.partial"] * ("; the map so far, of " in ran.said)
        self.assertEqual({*os.listdir()}, {*self.names, *kept})
        self.assertIn(ran.status, (0, 1, 3), ran.said)
        is_refused = ran.status == 1
        for name in _outputs(sample):
            with open(name, "rb") as file:
                self.assertEqual(file.read() == old(name), is_refused, ran.said)
        if is_refused and sample.words[:2] != ("tiles", "check"):
            self.assertEqual(ran.output, b"")
        # (what is done is told, too)
        lines = [it for it in ran.said.splitlines() if not re.search(BESIDE, it)]
        if "--quiet" in sample.words:
            self.assertEqual(len(lines), is_refused, ran.said)
        if is_refused:
            self.assertRegex(lines[-1], self.named(sample))
        # (the readers of the package itself foresee all bytes)
        self.assertNotIn("read as the form", ran.said)

    def named(self, sample):
        """What the line of a fault names: a cloud, or the sample, or a file beside it; or else it
        says that nothing is there."""
        nothing = "no scan has a point|nothing is known|[0-9]+ x [0-9]+ columns are more than"
        names = "|".join({*map(re.escape, (*sample.beside, sample.name)), "town"})
        return rf"^octofix: ({nothing}|([^ ]*corner\w*[.]\w+|{names})\b.*: )"


if __name__ == "__main__":
    unittest.main()
