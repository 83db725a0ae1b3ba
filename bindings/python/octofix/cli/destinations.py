"""Where a map is written: as a .bt file, as a snapshot, or as both."""

from octofix.io.errors import Unusable

from .standing import MAP, SNAPSHOT

# The kind of the file that each option names.
KINDS = {"output": MAP, "snapshot": SNAPSHOT}


def places_of(options, kinds=KINDS):
    """The names of the files that the options ask for, with their kinds."""
    return [(getattr(options, it), kind) for it, kind in kinds.items() if getattr(options, it)]


def asked_of(options, kinds=KINDS):
    """Those of the options that ask for a file; Unusable where none does, or two for the output."""
    asked = [it for it in kinds if getattr(options, it)]
    words = [{"output": "-o"}.get(it, f"--{it}") for it in kinds]
    if not asked:
        raise Unusable(f"nothing is to be written ({_listed(words, 'or')})")
    if [getattr(options, it) for it in asked].count("-") > 1:
        raise Unusable(f"only one of {_listed(words, 'and')} can be the output")
    return asked


def expect_something(options, is_known):
    """Leaves the old files where nothing is known in the map, but with --allow-empty."""
    if not is_known and not options.allow_empty:
        said = "nothing is known there, so nothing is written"
        raise Unusable(f"{said} (--allow-empty writes an empty map)")


def _listed(words, last):
    return f"{', '.join(words[:-1])} {last} {words[-1]}"
