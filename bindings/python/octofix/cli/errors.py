"""The exit statuses, and which one a fault has."""

from octofix.io.errors import MissingLibrary, Unusable

DONE = 0
UNUSABLE = 1
USAGE = 2
SKIPPED = 3
MISSING_LIBRARY = 4
INTERRUPTED = 130
CLOSED_PIPE = 141


class Misused(Unusable):
    """What the words ask for, and would lose what stands there."""


def status_of(why):
    """The status of a run that something Unusable ends."""
    if isinstance(why, Misused):
        return USAGE
    return MISSING_LIBRARY if isinstance(why, MissingLibrary) else UNUSABLE
