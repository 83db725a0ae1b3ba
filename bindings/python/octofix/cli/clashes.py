"""Outputs that would be written over an input or over each other."""

import os
import re
import stat

from octofix import _files
from octofix.io.errors import Unusable
from octofix.io.options import Input

from .arguments import Output
from .errors import Misused


def refuse_first(options, first):
    """Refuses to write over a map that stands right before the first of those that are read, in the
    order of their names, as it does where somebody forgets FILE in `-o FILE *.bt`."""
    for it in () if options.force else options.foremost:
        name = getattr(options, it)
        if isinstance(name, Output) and os.path.isfile(name) and _could_begin(name, first):
            said = "it stands there and seems to be one of the maps (is FILE forgotten?)"
            raise Misused(f"{said}; behind the maps, or with --force, it is replaced", name)


def _could_begin(name, first):
    """Whether a pattern of the shell that gives the one name could give the other one before it."""
    is_beside = os.path.dirname(name) == os.path.dirname(first) and _ending(name) == _ending(first)
    return is_beside and (name < first or name.casefold() < first.casefold())


def _ending(name):
    return os.path.splitext(re.sub(r"\.gz$", "", name.lower()))[1]


def refuse_clashes(options, *more):
    """Refuses outputs that are an input or another output, `more` of them beside those of the
    options. Files are told apart by device and inode, those that aren't there by their places."""
    words = [it for value in vars(options).values() for it in _listed(value)]
    inputs = [it for it in words if isinstance(it, Input)]
    outputs = [it for it in words if isinstance(it, Output)] + list(more)
    if "" in inputs + outputs:
        raise Unusable("the name of a file is empty (is a variable of the shell unset?)")
    if inputs.count("-") > 1:
        raise Unusable("- stands for two inputs, and the standard input can be read once")
    read, taken = {_identity(it, 0): it for it in inputs if _is_kept(it, 0)}, {}
    for name in outputs:
        place = _identity(name, 1)
        if place in read and _is_kept(name, 1):
            raise Unusable(f"it would be written over the input {read[place]}", name)
        if place in taken and name != os.devnull and {name, taken[place]} != {"-"}:
            raise Unusable(f"two outputs are this file, the other one as {taken[place]}", name)
        taken[place] = name


def _listed(value):
    return value if isinstance(value, list) else [value]


def _status(name, descriptor):
    try:
        return os.fstat(descriptor) if name == "-" else os.stat(name)
    except OSError:
        return None


def _identity(name, descriptor):
    found = _status(name, descriptor)
    if found:
        return found.st_dev, found.st_ino
    # (the folder of the process may be gone)
    with _files.named(name):
        return os.path.realpath(name)


def _is_kept(name, descriptor):
    """Whether what is written may be read again: a terminal may be both input and output."""
    found = _status(name, descriptor)
    return found is None or not (stat.S_ISCHR(found.st_mode) or stat.S_ISSOCK(found.st_mode))
