#!/usr/bin/env python3
"""Writes the manual page of octofix and its completions, of what its parsers say:

    write_tool_words.py FOLDER

writes FOLDER/octofix.1, octofix.bash and _octofix (for zsh). Needs numpy, the package on
PYTHONPATH, and OCTOFIX_LIBRARY or another place where that finds the library. The page is as old as
the newest version in CHANGELOG.md.
"""

import re
import sys
from pathlib import Path

import tool_completions
import tool_manual
from tool_words import commands_of, statuses_of

from octofix._program import parser
from octofix.cli.command import STATUSES

ROOT = Path(__file__).resolve().parents[2]
MONTHS = (
    "January February March April May June July August September October November December"
).split()


def date():
    """The day of the newest version, as mdoc wants it."""
    changes = (ROOT / "CHANGELOG.md").read_text()
    found = re.search(r"^## \[\d.*\] - (\d+)-(\d+)-(\d+)$", changes, re.M)
    year, month, day = map(int, found.groups())
    return f"{MONTHS[month - 1]} {day}, {year}"


def main(folder):
    commands = commands_of(parser())
    statuses = statuses_of(STATUSES)
    folder = Path(folder)
    folder.mkdir(parents=True, exist_ok=True)
    (folder / "octofix.1").write_text(tool_manual.page(commands, statuses, date()))
    (folder / "octofix.bash").write_text(tool_completions.bash(commands))
    (folder / "_octofix").write_text(tool_completions.zsh(commands))


if __name__ == "__main__":
    if len(sys.argv) != 2:
        sys.exit(__doc__)
    sys.dont_write_bytecode = True
    main(sys.argv[1])
