"""Words of the command line that several subcommands take."""

import argparse
import os

from octofix.io.lengths import nanometres
from octofix.io.options import Input, finite, spelled, whole


class Output(str):
    """The name of a file that is written."""


# What the ending of a name says of a file.
NAMED = {
    ".bt": "a .bt file",
    ".snap": "a snapshot",
    ".snapshot": "a snapshot",
    ".ot": "an .ot file",
    ".gz": "a file packed by gzip",
}
OTHERS = {
    "a cloud": ".pcd .ply .npy .npz .xyz .pts .csv .las .laz .graph .bag",
    "a picture": ".png .pgm .jpg",
    "a page": ".html .htm",
}
OTHERS = {ending: kind for kind, endings in OTHERS.items() for ending in endings.split()}


def classes_output(word):
    """The name of a .bt file that is written; not of a snapshot, whose values it would lack."""
    return _named(word, (".bt",), "a .bt file, which has classes alone,")


def values_output(word):
    """The name of a snapshot that is written; not of a .bt file, which other programs read."""
    return _named(word, (".snap", ".snapshot"), "a snapshot")


def _named(word, own, kind):
    """The name of a file of a kind that is written; not with an ending of others. (What stands
    under the name of a cloud, or the like, is judged by what it is.)"""
    others = NAMED if os.path.lexists(word) else NAMED | OTHERS
    for ending, other in others.items():
        if ending not in own and word.lower().endswith(ending):
            said = f"{word} is named as {other}, and {kind} is written"
            raise argparse.ArgumentTypeError(said)
    return Output(word)


def thousandths(word):
    return spelled(int, word, "whole number, of thousandths of log-odds")


def region(word):
    """The number of a region, from 1, and of how many."""
    number, parting, count = word.partition("/")
    if not parting:
        raise argparse.ArgumentTypeError(f"{word!r} isn't K/N, as 1/4 of four regions")
    found = whole(1, 1 << 12)(count)
    return whole(1, found)(number), found


class _Metres(argparse.Action):
    """Stores lengths as whole nanometres."""

    def __call__(self, parser, namespace, values, option_string=None):
        setattr(namespace, self.dest, tuple(nanometres(values).tolist()))


def add_origin(parser):
    parser.add_argument(
        "--origin", nargs=3, type=finite, action=_Metres, metavar=("X", "Y", "Z"),
        help="where the map's origin lies, if its file doesn't say so",
    )  # fmt: skip


def add_map(parser, name="map", is_required=True):
    parser.add_argument(
        name, type=Input, metavar=name.upper(), help="a .bt file or a snapshot; - is the input",
        nargs=None if is_required else "?",
    )  # fmt: skip


def add_output(parser, said="- is the output", is_required=True, of=Output):
    parser.add_argument("-o", "--output", type=of, required=is_required, metavar="FILE", help=said)
    add_force(parser)


def add_map_outputs(parser):
    """The options of where a map is written."""
    parser.add_argument(
        "-o", "--output", type=classes_output, metavar="FILE",
        help="the .bt file; - is the output",
    )  # fmt: skip
    parser.add_argument(
        "--snapshot", type=values_output, metavar="FILE",
        help="the map with its values; - is the output",
    )  # fmt: skip
    add_force(parser)
    parser.add_argument(
        "--allow-empty", action="store_true", help="write a map in which nothing is known, too"
    )


def add_force(parser):
    parser.add_argument(
        "--force", action="store_true", help="replace what stands there, of whatever kind it is"
    )


def add_box(parser):
    parser.add_argument(
        "--box", nargs=6, type=finite, metavar=("X0", "Y0", "Z0", "X1", "Y1", "Z1"),
        help="from the voxel of one corner to that of the other, in metres",
    )  # fmt: skip
