"""What is said beside the answer, on standard error. Where that is closed, nothing is said."""

import contextlib
import contextvars
import sys

_KEPT = contextvars.ContextVar("kept", default=None)


def say(text):
    """Says it in one line, whatever stands in names of files and in words of theirs."""
    shown = "".join(it if it.isprintable() else ascii(it)[1:-1] for it in text)
    kept = _KEPT.get()
    if kept is None:
        put(f"octofix: {shown}\n")
    else:
        kept.append(shown)


@contextlib.contextmanager
def kept():
    """A list of what is said within this, which nobody hears."""
    lines = []
    before = _KEPT.set(lines)
    try:
        yield lines
    finally:
        _KEPT.reset(before)


def put(text):
    """Puts a text there as it is."""
    # (the terminal may be gone)
    with contextlib.suppress(OSError):
        if sys.stderr is not None:
            print(text, end="", file=sys.stderr, flush=True)
