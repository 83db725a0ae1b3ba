"""Interrupts, full disks and two writers at random: nothing is lost, and nothing else is left."""

import os
import tempfile
import unittest

import trials

# More are tried by tests/tools_trials.py.
MANY = int(os.environ.get("OCTOFIX_TRIALS", "60"))
FIRST = int(os.environ.get("OCTOFIX_TRIALS_FROM", "0"))


class Trials(unittest.TestCase):
    def test_all(self):
        before = os.getcwd()
        with tempfile.TemporaryDirectory() as folder:
            try:
                place = trials.Place(folder)
                found = trials.cases(place)
                for seed in range(FIRST, FIRST + MANY):
                    with self.subTest(seed):
                        self.assertEqual(trials.tried(place, found, seed), "")
            finally:
                os.chdir(before)


if __name__ == "__main__":
    unittest.main()
