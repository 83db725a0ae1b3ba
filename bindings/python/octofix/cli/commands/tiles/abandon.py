"""Takes a run away that was begun and isn't ended: the tiles stay as they were before it.

    octofix tiles abandon town
"""

from octofix.io.notes import say
from octofix.mapping.tiles import folder as files, steps

from ...errors import DONE
from .running import add_folder, expect_tiles

HELP = "takes a run away that isn't ended"


def arguments(parser):
    add_folder(parser)


def run(options):
    expect_tiles(options.folder)
    with files.writing(options.folder):
        gone = steps.abandon(options.folder)
    said = f"the run {gone} is taken away" if gone else "no run is begun"
    say(f"{options.folder}: {said}")
    return DONE
