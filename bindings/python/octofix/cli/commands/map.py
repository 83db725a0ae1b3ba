"""Makes a map of point clouds.

    octofix map --res 0.1 --poses poses.txt clouds/*.pcd -o map.bt

Each cloud is one scan of a sensor: PCD, PLY, XYZ, CSV or PTS, NumPy's .npy and .npz, KITTI's .bin,
LAS, these packed by gzip, depth images (--camera), scan logs (NODE) and .graph files of the OctoMap
library, and ROS 1 bags. Points are in metres in the sensor's own frame. Three columns of text are
x, y and z; of more a heading or --columns says which are. Where a pose stands in the file
(VIEWPOINT of PCD, NODE) it is used unless poses are given; without any, the sensor stands at the
origin.

--from map.snap goes on from a map, so that clouds may come in several runs.

--jobs N makes the same map by N threads, each of which has a region. --region K/N does the scans in
one of N regions, the same ones for the same clouds; 'octofix merge' joins their snapshots.
"""

import os

from octofix import Refused
from octofix.io.asked import scans_of
from octofix.io.errors import Unusable
from octofix.io.lengths import metres, nanometres
from octofix.io.notes import say
from octofix.io.options import Input, add_scans, length, whole
from octofix.mapping.mapper import ScanMapper
from octofix.mapping.maps import read_map_with, tell_origin, write_map
from octofix.mapping.parallel import ParallelMapper, RegionMapper
from octofix.mapping.surveys import PlacedMap, expect_subtracted, the_one

from .. import destinations
from ..arguments import Output, add_force, classes_output, region, thousandths, values_output
from ..errors import DONE, INTERRUPTED, SKIPPED, Misused
from ..interrupts import INTERRUPTS, Abandoned
from ..keeping import keep, told
from ..outputs import WRITING, opened, put
from ..progress import Progress, is_terminal
from ..script import Script
from ..standing import SCRIPT

HELP = "clouds to a map"
OUTPUTS = {
    "output": (("-o", "--output"), classes_output, "the .bt file of the map"),
    "snapshot": (("--snapshot",), values_output, "the map with its values"),
    "script": (("--script",), Output, "commands for 'octomap build' or a session"),
}
KINDS = {**destinations.KINDS, "script": SCRIPT}
ON_ERROR = {
    "keep": "ends the run and keeps the map so far, as FILE.partial",
    "stop": "ends it with no file",
    "skip": "leaves it out",
}
# What is refused by the map, in the words of the options.
REFUSED = {
    "BadResolution": "--res is from 0.0001 to 100",
    "hit": "--hit is from 1 to 1000000",
    "miss": "--miss is from -1000000 to -1",
    "min": "--min is from -1000000 to 0",
    "max": "--max is from 0 to 1000000",
    "threshold": "--thr is above --min, and at most --max",
}
ODDS = {"hit": 850, "miss": -400, "min": -2000, "max": 3500, "thr": 0}


def arguments(parser):
    add_scans(parser, ON_ERROR)
    parser.add_argument("--res", type=length, metavar="M", help="edge of a voxel")
    parser.add_argument(
        "--from", dest="start", type=Input, metavar="MAP",
        help="go on from this map, of a snapshot with its values and log-odds; --res may be left "
        "out then",
    )  # fmt: skip
    out = parser.add_argument_group("what is written (- is the output)")
    for words, kind, said in OUTPUTS.values():
        out.add_argument(*words, type=kind, metavar="FILE", help=said)
    out.add_argument(
        "--allow-empty", action="store_true", help="write a map that no scan has put a point into"
    )
    add_force(out)
    for name, number in ODDS.items():
        parser.add_argument(
            f"--{name}", type=thousandths, metavar="N",
            help=f"thousandths of log-odds ({number})",
        )  # fmt: skip
    parser.add_argument(
        "--max-groups", type=whole(16, 1 << 26), default=1 << 24, metavar="N",
        help="the most groups of eight nodes of the map (2^24)",
    )  # fmt: skip
    parser.add_argument(
        "--max-cells", type=whole(1, 1 << 27), default=1 << 26, metavar="N",
        help="the most voxels that beams meet at once; larger scans are parted (2^26)",
    )  # fmt: skip
    cores = parser.add_argument_group("several cores, several machines")
    cores = cores.add_mutually_exclusive_group()
    cores.add_argument(
        "--jobs", type=whole(0, 256), default=1, metavar="N",
        help="so many threads, each with --max-groups; 0 takes as many as there are cores (1)",
    )  # fmt: skip
    cores.add_argument("--region", type=region, metavar="K/N", help="the Kth of N regions alone")


def outputs(options):
    return destinations.places_of(options, KINDS)


def run(options):
    _expect_start(options)
    asked = destinations.asked_of(options, KINDS)
    scans, places = scans_of(options), outputs(options)
    # (what can't be written is told before all the work)
    with INTERRUPTS.held(WRITING), opened(places, options.force) as files:
        named = dict(zip(asked, files))
        script = Script(named["script"]) if options.script else None
        mapper = _mapper_of(options, script)
        try:
            is_stopped = _make(mapper, scans, options, named)
            put(files, places, options.force)
        except Exception as fault:
            is_nothing = not (mapper.points and mapper.whole_scans())
            if options.on_error == "stop" or options.region or is_nothing:
                raise
            raise _with_kept(fault, mapper, script, dict(zip(asked, places))) from None
    INTERRUPTS.take()
    if not options.quiet:
        say(_closing_line(mapper, scans))
        tell_origin(asked, _origin_of(options))
    if is_stopped:
        say(f"stopped by {INTERRUPTS.name()}: the map has the scans until then")
        return INTERRUPTED
    return SKIPPED if scans.skips.count or scans.gaps else DONE


def _make(mapper, scans, options, files):
    """Makes the map, and writes it; whether an interrupt came before all scans were done."""
    ended = _fill(mapper, scans, options)
    is_stopped = isinstance(ended, KeyboardInterrupt)
    if ended and not is_stopped:
        raise ended
    if is_stopped and options.region:
        raise KeyboardInterrupt(": nothing is written, as other regions may have more scans")
    _expect_points(mapper, scans, is_stopped, options.allow_empty)
    INTERRUPTS.finish(WRITING, _write, mapper, files)
    return is_stopped


def _with_kept(fault, mapper, script, places):
    """The fault, which says where the map is that the mapper has made until then."""

    def fill(files):
        write_map(mapper.so_far(), files)
        if script:
            script.copy_to(files["script"])

    names = INTERRUPTS.finish(WRITING, keep, places, fill)
    more = " and parts of later ones" * mapper.is_torn()
    said = f"the map so far, of {mapper.whole_scans()} scans{more}, is in {' and '.join(names)}"
    return told(fault, said) if names else fault


def _mapper_of(options, script):
    # (maps aren't closed: a scan that is abandoned is still at work in one)
    jobs = options.jobs or len(os.sched_getaffinity(0))
    if jobs > 1:
        return ParallelMapper(lambda: _map_of(options), jobs, options.range, script)
    if options.region:
        return RegionMapper(_map_of(options), *options.region, options.range, script)
    return ScanMapper(_map_of(options), options.range, script)


def _expect_start(options):
    """Unusable where it isn't said how the map begins, or in two ways."""
    if options.start is None and options.res is None:
        raise Misused("--res is needed, or --from with a map that has one")
    lone = {"--jobs": options.jobs != 1, "--region": options.region, "--script": options.script}
    for word in [it for it, is_there in lone.items() if is_there and options.start is not None]:
        begin = "a script begins" if word == "--script" else "maps of regions begin"
        raise Misused(f"--from and {word} exclude each other: {begin} with nothing")


def _map_of(options):
    """The map that scans are to be done in."""
    asked = {name: getattr(options, name) for name in ODDS}
    odds = {name: ODDS[name] if it is None else it for name, it in asked.items()}
    odds["threshold"] = odds.pop("thr")
    limits = {"max_groups": options.max_groups, "max_cells": options.max_cells}
    try:
        if options.start is None:
            world = PlacedMap(options.res, **odds, **limits)
        else:
            world = read_map_with(options.start, **odds, **limits)
    except Refused as refused:
        field = refused.fields.get("field", refused.name)
        raise Unusable(REFUSED.get(field, str(refused))) from None
    if options.start is not None:
        _expect_same(world, options, asked)
    world.origin = the_one(world.origin, _origin_of(options), options.start)
    return world


def _origin_of(options):
    """What is subtracted from clouds, in nanometres, or None."""
    return options.origin and tuple(nanometres(options.origin).tolist())


def _expect_same(world, options, asked):
    """Unusable where a map that is to be gone on from isn't as it was asked for."""
    found = dict(zip(ODDS, world.odds), res=world.resolution_nm)
    asked["res"] = None if options.res is None else int(nanometres(options.res))
    for name, number in asked.items():
        if number is not None and number != found[name]:
            has = metres(found[name]) if name == "res" else found[name]
            raise Unusable(f"it has --{name} {has}, and another one is asked for", options.start)
    if world.window is not None:
        said = "it is the map of a region ('octofix merge' joins them first)"
        raise Unusable(said, options.start)
    # (a map has its origin in its own frame, and clouds are in theirs)
    expect_subtracted(world.origin, options.origin, options.start)


def _fill(mapper, scans, options):
    """Does all scans, or those before what ends this: an interrupt or a fault, which is answered
    when those that run are done."""
    is_shown = not options.quiet and is_terminal()
    progress = Progress(len(options.clouds) if scans.is_one_each() else None, is_shown)
    try:
        ended = _begin(mapper, scans, progress)
        if ended and options.on_error == "stop" and not isinstance(ended, KeyboardInterrupt):
            raise ended
        while INTERRUPTS.finish("the running scans", mapper.catch_up):
            _show(mapper, progress)
        return ended
    finally:
        mapper.stop()
        progress.close()
        mapper.rates = progress.rates()


def _begin(mapper, scans, progress):
    """Begins with all scans; the interrupt or the fault that came before their end."""
    try:
        with INTERRUPTS.held(None):
            mapper.begin(scans)
            for do_next in mapper.todo(scans):
                INTERRUPTS.finish("the running scan", do_next)
                _show(mapper, progress)
                INTERRUPTS.take()
    except Abandoned:
        raise
    except (Exception, KeyboardInterrupt) as ended:
        return ended
    return None


def _show(mapper, progress):
    for points in mapper.take_finished():
        progress.step(points)


def _expect_points(mapper, scans, is_stopped, is_empty_allowed):
    """Leaves the old files where the map has nothing."""
    if mapper.points:
        return
    if is_stopped:
        raise KeyboardInterrupt(" before the first scan: nothing is written")
    if not is_empty_allowed:
        said = "no scan has a point, so nothing is written (--allow-empty writes an empty map)"
        raise Unusable("; ".join([said, *left_out(scans)]))


def _write(mapper, files):
    write_map(mapper.joined(), files)


def _closing_line(mapper, scans):
    counted = [f"{mapper.scans} scans of {mapper.points} points, {mapper.rates}"]
    if scans.choice.reach is not None:
        counted.append(f"{scans.left.cut} beams cut by --range")
    if mapper.parted:
        counted.append(f"{mapper.parted} of them in parts")
    return "; ".join([*counted, *left_out(scans)])


def left_out(scans):
    """What was left out of scans, in some words each."""
    counted = []
    if scans.skips.count:
        counted.append(f"skipped {scans.skips.count}")
    if scans.gaps:
        counted.append(f"{scans.gaps} gaps without a pose")
    if scans.left.text():
        counted.append(f"left out {scans.left.text()}")
    if scans.left.at_sensor:
        said = "points make the sensor's own voxel occupied (--min-range leaves them out)"
        counted.append(f"{scans.left.at_sensor} {said}")
    return counted
