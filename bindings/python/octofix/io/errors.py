"""Why an input can't be used."""

import contextlib

LONGEST_REASON = 200


class Unusable(Exception):
    """Why an input can't be used, and where: the file, the line and the column, from 1."""

    def __init__(self, why, name=None, line=None, column=None):
        super().__init__(why)
        self.why, self.name, self.line, self.column = why, name, line, column

    def named(self, name):
        """The same, said of this file where no file is named."""
        self.name = self.name or name
        return self

    def __str__(self):
        place = [it for it in (self.name, self.line, self.column) if it is not None]
        return ":".join(map(str, place)) + ": " * bool(place) + self.why


class Torn(Unusable):
    """What can't be left out: a scan that one region refuses, and others may have done."""


class MissingLibrary(Unusable):
    """A Python library that is optional, and needed for what was asked."""


@contextlib.contextmanager
def failing_as(what):
    """Whatever a library raises of bytes that it can't read is Unusable: they are no `what`."""
    try:
        yield
    except Unusable:
        raise
    except OSError as error:
        raise Unusable(error.strerror or f"it can't be read as {what}: {error}") from error
    except Exception as error:
        reason = f"{type(error).__name__} {error}"[:LONGEST_REASON]
        raise Unusable(f"it can't be read as {what}: {reason}") from error


@contextlib.contextmanager
def made_unusable():
    """What is a ValueError within is Unusable, in the same words."""
    try:
        yield
    except ValueError as why:
        raise Unusable(str(why)) from None


@contextlib.contextmanager
def on_line(line):
    """What is Unusable within is so on this line of its file."""
    try:
        yield
    except Unusable as why:
        why.line = why.line or line
        raise
