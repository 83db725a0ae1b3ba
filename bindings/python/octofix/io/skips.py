"""What is to be done with an input that can't be used: stop, or leave it out and count it."""

from .errors import Torn
from .notes import say


class Skips:
    def __init__(self, is_skipping):
        self.is_skipping = is_skipping
        self.count = 0

    def judge(self, why):
        """Says and counts what is left out; raises it where the run stops."""
        if not self.is_skipping or isinstance(why, Torn):
            raise why
        self.count += 1
        say(f"skipped: {why}")
