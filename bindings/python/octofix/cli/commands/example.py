"""Writes clouds of a flat with four rooms, and poses, to try the other commands on.

    octofix example flat && cd flat
    octofix map --res 0.05 --poses poses.txt clouds/*.npy -o flat.bt
    octofix view flat.bt --oblique --above 50 -o flat.png

FOLDER/clouds/0.npy to 6.npy are what a spinning sensor of 64 rings sees at seven places, in its own
frame, and FOLDER/poses.txt has its poses in the form of the TUM benchmarks. Walls are 2.4 m high,
what stands on the floor 1 m, tables 0.75 m.
"""

import contextlib
import io
from math import pi
from pathlib import Path

import numpy as np

from octofix.io.errors import Unusable

from ..errors import DONE
from ..flat_plan import LEGS, ON_FLOOR, PLACES, TABLES, WALLS
from ..outputs import written
from ..standing import ANY

HELP = "clouds and poses to try the others on"
SENSOR = 1.4
RINGS = np.radians(np.linspace(-60, 30, 64))
AROUND = (np.arange(1200) + 0.5) * 2 * pi / 1200
# Lines from (x, y) to (x, y) that stand between two heights.
SURFACES = [(WALLS, 0, 2.4), (ON_FLOOR, 0, 1), (TABLES, 0.7, 0.75), (LEGS, 0, 0.7)]


def ways_to(place, turns, lines):
    """How far each turn goes until each line, (turns, lines); infinite where it passes by."""
    ends = np.array(lines)
    start, along = ends[:, :2] - place, ends[:, 2:] - ends[:, :2]
    dx, dy = np.cos(turns)[:, None], np.sin(turns)[:, None]
    across = dx * along[:, 1] - dy * along[:, 0]
    with np.errstate(divide="ignore", invalid="ignore"):
        way = (start[:, 0] * along[:, 1] - start[:, 1] * along[:, 0]) / across
        part = (start[:, 0] * dy - start[:, 1] * dx) / across
        return np.where((way > 0) & (part >= 0) & (part <= 1), way, np.inf)


def seen_from(place, turned):
    """The points that are seen, in the frame of a sensor that is turned by so many radians."""
    turns = AROUND + turned
    tangents = np.tan(RINGS)[:, None]
    nearest = np.where(tangents < 0, SENSOR / np.maximum(-tangents, 1e-9), np.inf)
    nearest = np.broadcast_to(nearest, (len(RINGS), len(turns))).copy()
    for lines, low, high in SURFACES:
        for way in ways_to(place, turns, lines).T:
            with np.errstate(invalid="ignore"):
                height = SENSOR + way * tangents
            is_met = (height >= low) & (height <= high)
            nearest = np.where(is_met, np.minimum(nearest, way), nearest)
    is_seen = nearest < 12
    points = [nearest * np.cos(AROUND), nearest * np.sin(AROUND), nearest * tangents]
    return np.stack([it[is_seen] for it in points], axis=-1)


def arguments(parser):
    parser.add_argument("folder", metavar="FOLDER", help="a new folder, or an empty one")


def run(options):
    if not options.folder:
        raise Unusable("the name of the folder is empty (is a variable of the shell unset?)")
    folder = Path(options.folder)
    clouds = folder / "clouds"
    # (a run that was killed may have left the folders)
    for it in filter(Path.is_dir, (folder, clouds)):
        if any(inside != clouds for inside in it.iterdir()):
            raise Unusable("something is in that folder", str(folder))
    with _made(clouds):
        _write_flat(folder, clouds)
    return DONE


@contextlib.contextmanager
def _made(folder):
    """Makes the folder, with those that it lies in; where what follows fails, those that it has
    made go again."""
    lacking = [it for it in (folder, *folder.parents) if not it.exists()]
    try:
        folder.mkdir(parents=True, exist_ok=True)
        yield
    except BaseException:
        for it in lacking:
            # (what somebody else has put there stays)
            with contextlib.suppress(OSError):
                it.rmdir()
        raise


def _write_flat(folder, clouds):
    names = [clouds / f"{number}.npy" for number in range(len(PLACES))]
    places = [(str(it), ANY) for it in (folder / "poses.txt", *names)]
    with written(places) as (poses, *files):
        poses.write(b"# time x y z qx qy qz qw\n")
        for number, (place, file) in enumerate(zip(PLACES, files)):
            turned = number * 0.9
            file.write(_npy(seen_from(place, turned)))
            turn = f"0 0 {np.sin(turned / 2):.9f} {np.cos(turned / 2):.9f}"
            poses.write(f"{number} {place[0]} {place[1]} {SENSOR} {turn}\n".encode())


def _npy(points):
    file = io.BytesIO()
    np.save(file, points.astype(np.float32))
    return file.getvalue()
