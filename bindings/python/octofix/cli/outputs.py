"""Bytes out: files that are put in their places when they are whole, and the standard output under
the name '-'."""

import contextlib
import sys

from octofix import _files
from octofix.io.notes import say

from .interrupts import INTERRUPTS
from .standing import refuse_others

# What an interrupt waits for.
WRITING = "the files to be written"


@contextlib.contextmanager
def opened(places, is_forced=False):
    """Files to write, of names with kinds. Those that aren't `put` in their places when this ends
    leave nothing."""
    refuse_others(places, is_forced)
    outputs = [StandardOutput() if it == "-" else _files.Output(it) for it, _ in places]
    with contextlib.ExitStack() as stack:
        # (a pipe may wait for its reader)
        with INTERRUPTS.held(None):
            stack.enter_context(_files.opened(outputs))
        yield outputs


def put(outputs, places, is_forced=False):
    """Puts opened files in their places when all of them are whole, or none. An interrupt waits
    until they are there."""
    with INTERRUPTS.held(WRITING):
        # (somebody else may have put something there meanwhile)
        refuse_others(places, is_forced)
        _files.put(outputs)
        for it in filter(None, [output.told for output in outputs]):
            say(it)


@contextlib.contextmanager
def written(places, is_forced=False):
    """Files to write, which are put in their places where this ends without a fault."""
    with opened(places, is_forced) as outputs:
        yield outputs
        put(outputs, places, is_forced)
    INTERRUPTS.take()


def write(place, data, is_forced=False):
    """Writes a file of a name with its kind."""
    with written([place], is_forced) as (file,):
        file.write(data)


class StandardOutput(_files.Output):
    """The standard output, which has no place to be put in."""

    def __init__(self):
        super().__init__("-")
        self.stream = sys.stdout.buffer

    def open(self):
        pass

    def write(self, data):
        self.stream.write(data)

    def finish(self):
        self.stream.flush()
