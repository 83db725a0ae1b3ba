#!/bin/sh
# The command octofix: the tools of the Python package that is installed beside it. Where this
# Python has no numpy, the system's own one is tried.

''':'
# (for the shell: a Ctrl-C waits while Python starts, where it would give a traceback)
block=--block-signal=INT
env "$block" true 2>/dev/null || block=
exec env $block @PYTHON@ "$0" "$@"
'''

import importlib.util
import os
import sys

SYSTEM = "/usr/bin/python3"
MISSING = 4


def stop(why):
    print(f"octofix: {why}", file=sys.stderr)
    sys.exit(MISSING)


if sys.version_info < (3, 9):
    stop("Python 3.9 or newer is needed")
prefix = os.path.dirname(os.path.dirname(os.path.realpath(__file__)))
sys.path.insert(0, os.path.join(prefix, "@PACKAGES@"))
if not os.environ.get("OCTOFIX_LIBRARY"):
    os.environ["OCTOFIX_LIBRARY"] = os.path.join(prefix, "@LIB@/lib@NAME@.so.1")
# (the tools import it, once they listen to Ctrl-C)
if importlib.util.find_spec("numpy") is None:
    if sys.executable != SYSTEM and os.access(SYSTEM, os.X_OK):
        os.execv(SYSTEM, [SYSTEM, __file__, *sys.argv[1:]])
    stop("no python3 with numpy is here (in Debian python3-numpy)")

from octofix.__main__ import run  # noqa: E402

run()
