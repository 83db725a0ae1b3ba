"""Writes a height band of a map as a picture with the YAML that the map server of ROS reads.

    octofix grid map.bt --height 0.1 1.8 -o floor.pgm
    octofix grid map.bt --height 0.1 1.8 -o floor.png --frontier frontier.csv

writes floor.pgm (0 occupied, 254 free, 205 unknown; the top row is that of the highest y) and
floor.yaml. The box is all that is known where none is given. The frontier is the middles of the
free cells of the picture that have an unknown one beside them.
"""

import os

import numpy as np

from octofix.io.errors import Unusable
from octofix.io.lengths import NANO, metres
from octofix.io.notes import say
from octofix.io.options import finite
from octofix.mapping import planes
from octofix.mapping.leaves import FREE, OCCUPIED, ORIGIN, UNKNOWN
from octofix.mapping.maps import read_map
from octofix.mapping.surveys import the_one

from ..arguments import Output, add_map, add_origin, add_output
from ..boxes import box_of
from ..clashes import refuse_clashes
from ..errors import DONE
from ..outputs import written
from ..pictures import form_of, picture
from ..pointfiles import points_file
from ..standing import PICTURES, POINTS, YAML as YAML_OF_MAP
from ..yamltext import text_of

HELP = "a height band as PGM or PNG, with its YAML for ROS"
GREYS = {UNKNOWN: 205, FREE: 254, OCCUPIED: 0}
YAML = """image: {image}
resolution: {resolution}
origin: [{x}, {y}, 0]
negate: 0
occupied_thresh: 0.65
free_thresh: 0.196
mode: trinary
"""


def arguments(parser):
    add_map(parser)
    parser.add_argument(
        "--height", nargs=2, type=finite, metavar=("Z0", "Z1"), help="the band, in metres (all)"
    )
    parser.add_argument(
        "--area", nargs=4, type=finite, metavar=("X0", "Y0", "X1", "Y1"), help="in metres (all)"
    )
    add_output(parser, ".pgm or .png")
    add_origin(parser)
    parser.add_argument("--frontier", type=Output, metavar="FILE", help="a .csv of the frontier")


def outputs(options):
    """The picture, the YAML beside it, and the frontier."""
    beside = Output(os.path.splitext(options.output)[0] + ".yaml")
    found = [(options.output, PICTURES[form_of(options.output)]), (beside, YAML_OF_MAP)]
    frontier = getattr(options, "frontier", None)
    return found + [(frontier, POINTS["csv"])] * bool(frontier)


def run(options):
    places = outputs(options)
    refuse_clashes(options, places[1][0])
    with read_map(options.map) as world:
        resolution = world.resolution_nm
        low, high = box_for(world.bounds(), resolution, options.area, options.height)
        plane = planes.band_of(world, low, high)
        origin = the_one(world.origin, options.origin, options.map)
    place = low, resolution, origin
    write_grid(places, plane, place, options.force)
    return DONE


def write_grid(places, plane, place, is_forced=False):
    """Writes the picture of a plane of classes, its YAML, and where a third place is named its
    frontier. place: the key of the lower left cell, the resolution, and where the map's origin
    lies, or None."""
    (name, _), (low, resolution, _) = places[0], place
    image = text_of(os.path.basename(name))
    greys = np.array([GREYS[it] for it in (UNKNOWN, FREE, OCCUPIED)], np.uint8)
    contents = [picture(name, greys[plane[::-1]]), yaml_of(image, *place).encode()]
    if len(places) > 2:
        contents.append(frontier_file(plane, low, resolution))
    with written(places, is_forced) as files:
        for file, content in zip(files, contents):
            file.write(content)
    counted = ", ".join(f"{(plane == it).sum()} {name}" for it, name in _named())
    say(f"{plane.shape[1]} x {plane.shape[0]} cells: {counted}")


def _named():
    return (OCCUPIED, "occupied"), (FREE, "free"), (UNKNOWN, "unknown")


def box_for(known, resolution, area, height, options="--area, --height"):
    """The keys of the box of an area and a band of heights, which these options gave, of all that
    is known without them."""
    if known is None:
        if not (area and height):
            raise Unusable("nothing is known in the map, so it has no extent")
        known = np.full((2, 3), ORIGIN)
    low, high = (np.array(it, np.int64) for it in known)
    x_0, y_0, x_1, y_1 = area or (0, 0, 0, 0)
    z_0, z_1 = height or (0, 0)
    box = box_of((x_0, y_0, z_0, x_1, y_1, z_1), resolution, options)
    for corner, asked in zip((low, high), box):
        corner[:2] = asked[:2] if area else corner[:2]
        corner[2] = asked[2] if height else corner[2]
    return low, high


def yaml_of(image, low, resolution, origin=None):
    """The YAML of an image whose lower left cell has this key: its origin is that corner. Where the
    origin of the map lies, if somebody says so, is a key that a map server passes over."""
    x, y = (metres(it) for it in (np.asarray(low)[:2] - ORIGIN) * resolution)
    said = YAML.format(image=image, resolution=metres(resolution), x=x, y=y)
    return said if origin is None else f"{said}map_origin: [{', '.join(map(metres, origin))}]\n"


def frontier_file(plane, low, resolution):
    """A CSV of the middles of the cells of the frontier."""
    rows, columns = np.nonzero(planes.frontier(plane))
    keys = np.stack([columns + low[0], rows + low[1]], axis=-1)
    middles = (2 * (keys - ORIGIN) + 1) * (resolution / 2 / NANO)
    return points_file("csv", ["x", "y"], middles)
