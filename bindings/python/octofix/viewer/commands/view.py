"""Makes a picture of a map, or a page that shows it in a browser.

    octofix view map.bt -o map.html                     a page, with the map in it
    octofix view map.bt --open                          the same, shown at once
    octofix view -o viewer.html                         a page into which maps are dropped
    octofix view map.bt -o above.png                    from above, coloured by height
    octofix view map.bt --oblique -o corner.png         from a corner
    octofix view map.bt --slice 0.5 -o slice.png        one layer of voxels
    octofix view map.bt --slice 0.5 --text              the same as text: # occupied, . free

In the page the map is turned by mouse, fingers or keys, and cut from above and below; a click tells
what stands there, of a snapshot with its value. It needs no network. The page without a map has the
library in it: it opens files, measures, compares two maps and saves them, and they stay on the
machine.
"""

import argparse
import contextlib
import os
import pathlib
import tempfile
import webbrowser
from math import isqrt

import numpy as np

from octofix.cli.arguments import add_box, add_map, add_origin, add_output
from octofix.cli.boxes import border_of, box_of
from octofix.cli.commands.grid import box_for
from octofix.cli.errors import DONE
from octofix.cli.outputs import write
from octofix.cli.pictures import MOST_PIXELS, write_picture
from octofix.cli.standing import PAGE, PICTURES
from octofix.io.errors import Unusable
from octofix.io.notes import say
from octofix.io.options import finite, whole
from octofix.mapping import planes
from octofix.mapping.leaves import HIGHEST, OCCUPIED, VOXELS, values_of_parts
from octofix.mapping.maps import read_leaves, read_placed
from octofix.mapping.morton import decode
from octofix.mapping.surveys import the_one

from .. import colours, oblique
from ..page import FOLDER, MOST_LEAVES, fewer, page

HELP = "a page for a browser, or a picture: from above, from a corner, a slice"
MOST_VOXELS = 1 << 22
# Of large blocks along the border of a box.
MOST_PARTS = 1 << 20
SIGNS = np.array([" ", ".", "#"])
PAGES = (".html", ".htm")
# The page into which maps are dropped: with the proved library in it, where that is installed.
EMPTY_PAGES = "viewer.html", "viewer-unproved.html"


def elevation(word):
    if not 5 <= finite(word) <= 85:
        raise argparse.ArgumentTypeError(f"{word} isn't from 5 to 85 degrees")
    return finite(word)


def arguments(parser):
    add_map(parser, is_required=False)
    add_box(parser)
    how = parser.add_mutually_exclusive_group()
    how.add_argument("--oblique", action="store_true", help="from a corner")
    how.add_argument("--slice", type=finite, metavar="Z", help="the voxels at this height")
    parser.add_argument(
        "--around", type=finite, metavar="DEG",
        help="where --oblique looks from: degrees from x towards y (235)",
    )  # fmt: skip
    parser.add_argument(
        "--above", type=elevation, metavar="DEG", help="and above the ground (35)"
    )
    parser.add_argument("--width", type=whole(16, 8192), default=800, metavar="N", help="in pixels")
    parser.add_argument("--text", action="store_true", help="a slice as text on the output")
    add_output(parser, "the page, .html, or picture, .png", is_required=False)
    parser.add_argument("--open", action="store_true", help="show the page in the browser")
    add_origin(parser)


def outputs(options):
    name = options.output
    if not name or name == "-":
        return []
    return [(name, PAGE if name.lower().endswith(PAGES) else PICTURES["png"])]


def run(options):
    if options.text and options.slice is None:
        raise Unusable("--text shows a slice (--slice Z)")
    if not (options.text or options.open or options.output):
        raise Unusable("nothing is to be written (-o FILE, --text or --open)")
    if not options.oblique and (options.around, options.above) != (None, None):
        raise Unusable("--around and --above say where --oblique looks from")
    if options.open or options.output and options.output.lower().endswith(PAGES):
        _page(options)
        return DONE
    if options.map is None:
        raise Unusable("which map? (without one there is a page, -o FILE.html or --open)")
    if options.output and not options.output.lower().endswith(".png"):
        raise Unusable("a page's name ends in .html, that of a picture in .png", options.output)
    leaves = read_leaves(options.map)
    if options.slice is not None:
        _slice(leaves, options)
        return DONE
    box = (0, HIGHEST)
    if options.box:
        box = box_of(options.box, leaves.resolution)
        leaves = leaves.meeting(*box)
        if not len(leaves):
            raise Unusable("nothing is known there")
    if options.oblique:
        _oblique(leaves, box, options)
    else:
        _above(leaves, box, options)
    return DONE


def _page(options):
    if options.oblique or options.text or options.slice is not None:
        raise Unusable("--oblique, --slice and --text are for pictures; a page shows it all")
    if options.output and not options.output.lower().endswith(PAGES):
        raise Unusable("--open shows a page (-o FILE.html, or no -o)", options.output)
    content = _page_of(options)
    name = options.output or _write_for_the_browser(content)
    if options.output:
        write((name, PAGE), content, options.force)
    if options.open and not webbrowser.open(pathlib.Path(name).absolute().as_uri()):
        raise Unusable(f"no browser could be started; open {name} in one")
    if not options.output:
        say(f"{name} is shown")


def _write_for_the_browser(content):
    """The name of a new page, in a folder of its own, of which nothing is left where it fails."""
    folder = tempfile.mkdtemp(prefix="octofix-")
    name = os.path.join(folder, "map.html")
    try:
        write((name, PAGE), content)
    finally:
        # (with the page in it, it stays)
        with contextlib.suppress(OSError):
            os.rmdir(folder)
    return name


def _page_of(options):
    if options.map is None:
        return _page_for_any_map(options)
    leaves, values, said = read_placed(options.map)
    origin = the_one(said, options.origin, options.map)
    if options.box:
        box = border_of(leaves, box_of(options.box, leaves.resolution), MOST_PARTS)
        part = leaves.within(*box)
        values = values if values is None else values_of_parts(values, leaves, part)
        leaves = part
    if not len(leaves):
        raise Unusable("nothing is known there")
    if not leaves.depths[0]:
        leaves, values = leaves.children(), values if values is None else np.repeat(values, 8)
    leaves, values, depth = fewer(leaves, values)
    if depth < VOXELS:
        say(f"blocks of depth {depth} are shown: there are more than {MOST_LEAVES} leaves")
    name = "map" if options.map == "-" else os.path.basename(options.map)
    return page(leaves, name, values, origin)


def _page_for_any_map(options):
    """The page into which maps are dropped, which an install has beside its tools."""
    if options.box:
        raise Unusable("--box is for a map, and none is given")
    for name in EMPTY_PAGES:
        with contextlib.suppress(FileNotFoundError):
            return (FOLDER / name).read_bytes()
    raise Unusable("this install has no page for any map; a release has one")


def _slice(leaves, options):
    area = options.box and [options.box[it] for it in (0, 1, 3, 4)]
    height = (options.slice, options.slice)
    box = box_for(leaves.box(), leaves.resolution, area, height, "--box, --slice")
    plane = planes.band(leaves, *box)[::-1]
    if not plane.any():
        say("nothing is known at this height")
    if options.text:
        print("\n".join(" ".join(row).rstrip() for row in SIGNS[plane]))
    if options.output:
        _write(options, colours.by_class(plane))


def _above(leaves, box, options):
    occupied = leaves.of_class(OCCUPIED)
    low, high = box_for(leaves.box(*box), leaves.resolution, None, None)
    known, tops = planes.band(leaves, low, high), planes.heights(occupied, low, high)
    image = np.array([colours.BACKGROUND, colours.SEEN], np.uint8)[(known > 0).view(np.uint8)]
    is_there = tops >= 0
    if is_there.any():
        seen = tops[is_there]
        least, most = seen.min(), seen.max()
        shades = colours.by_height(np.arange(least, most + 1), least, most)
        image[is_there] = shades[seen - least]
    _write(options, image[::-1])


def _write(options, cells):
    """A picture of cells, each of as many pixels as the width and the most pixels have room for."""
    rows, columns, _ = cells.shape
    times = max(min(options.width // columns, isqrt(MOST_PIXELS // (rows * columns))), 1)
    pixels = np.repeat(np.repeat(cells, times, axis=0), times, axis=1)
    write_picture(options.output, pixels, options.force)


def _voxels(leaves, box):
    """The keys of occupied voxels in a box of keys, or the numbers of greater blocks where there
    are too many."""
    depth, occupied = VOXELS, leaves.of_class(OCCUPIED).meeting(*box)
    while occupied.count_in(*box, depth) > MOST_VOXELS:
        depth -= 1
        occupied = occupied.coarse(depth)
    if depth < VOXELS:
        say(f"blocks of depth {depth} are shown: there are more than {MOST_VOXELS} voxels")
    codes = [codes for codes, _ in occupied.blocks(*box, depth)]
    if not codes:
        raise Unusable("nothing is occupied there")
    return decode(np.concatenate(codes) >> 3 * (VOXELS - depth))


def _oblique(leaves, box, options):
    keys = _voxels(leaves, box)
    asked = {"around": options.around, "above": options.above}
    camera = oblique.Camera(**{name: it for name, it in asked.items() if it is not None})
    picture = oblique.picture(keys, camera, options.width)
    write_picture(options.output, picture, options.force)
