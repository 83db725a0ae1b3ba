"""Looks whether each file of tiles is whole, by its bytes and its sum.

    octofix tiles check town

What is missing, cut or changed is a line each, and the status is 1.
"""

from octofix.io.notes import say
from octofix.mapping.tiles import Tiles

from ...errors import DONE, UNUSABLE
from .running import add_folder

HELP = "whether all files are whole"


def arguments(parser):
    add_folder(parser)


def run(options):
    with Tiles(options.folder) as tiles:
        found = tiles.check()
        count = len(tiles.places)
    for it in found:
        say(str(it))
    if found:
        return UNUSABLE
    print(f"{count} tiles are whole")
    return DONE
