"""The program octofix: all its commands, of both layers that have some."""

from .cli import command

_COMMANDS, _TILES = "octofix.cli.commands", "octofix.cli.commands.tiles"
# The module of each command by its words, in the order of the help.
COMMANDS = {
    "map": f"{_COMMANDS}.map",
    "merge": f"{_COMMANDS}.merge",
    "info": f"{_COMMANDS}.info",
    "points": f"{_COMMANDS}.points",
    "grid": f"{_COMMANDS}.grid",
    "view": "octofix.viewer.commands.view",
    "compare": f"{_COMMANDS}.compare",
    "crop": f"{_COMMANDS}.crop",
    "shift": f"{_COMMANDS}.shift",
    "coarsen": f"{_COMMANDS}.coarsen",
    "check": f"{_COMMANDS}.check",
    "tiles": _TILES,
    "tiles build": f"{_TILES}.build",
    "tiles add": f"{_TILES}.add",
    "tiles info": f"{_TILES}.info",
    "tiles points": f"{_TILES}.points",
    "tiles grid": f"{_TILES}.grid",
    "tiles view": "octofix.viewer.commands.tiles_view",
    "tiles crop": f"{_TILES}.crop",
    "tiles check": f"{_TILES}.check",
    "tiles abandon": f"{_TILES}.abandon",
    "example": f"{_COMMANDS}.example",
}


def parser():
    return command.parser(COMMANDS)


def main(words=None):
    """Runs a command, and answers its exit status."""
    return command.main(COMMANDS, words)


def run():
    """Runs the command of the process's words, and ends the process with its status."""
    command.run(COMMANDS)
