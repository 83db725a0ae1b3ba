"""Runs by words of the command line."""

import contextlib
import os
from types import SimpleNamespace

from octofix.io.errors import Unusable
from octofix.io.notes import say
from octofix.io.options import add_scans, whole
from octofix.io.scans import Left
from octofix.mapping.tiles import engines, runs, steps, folder as files

from ...arguments import region
from ...errors import DONE, SKIPPED
from ...progress import Steps, is_terminal
from ..map import left_out

KEPT = ": what is done is kept, and the same command goes on with it"
STEPS = {"part": "pieces of clouds that are parted", "build": "tiles that are made"}


def add_folder(parser, said="of the tiles"):
    parser.add_argument("folder", metavar="FOLDER", help=said)


def corners_of(box):
    """The corners of a box that six numbers in metres gave; nothing without."""
    if not box:
        return []
    if any(low > high for low, high in zip(box[:3], box[3:])):
        raise Unusable("the box has a first corner that lies beyond the second (--box)")
    return [box[:3], box[3:]]


def refuse_inside(folder, *names):
    """Refuses to write into the folder of tiles."""
    for name in names:
        place = os.path.realpath(name)
        if os.path.commonpath([place, os.path.realpath(folder)]) == os.path.realpath(folder):
            raise Unusable("it would be written among the files of the tiles", name)


def expect_tiles(folder):
    if not os.path.isdir(folder):
        raise Unusable("there are no tiles", folder)


def add_run(parser):
    """The folder, the clouds, and who does the work."""
    add_folder(parser)
    add_scans(parser, is_optional=True)
    who = parser.add_argument_group("several cores, several machines")
    who = who.add_mutually_exclusive_group()
    who.add_argument(
        "--jobs", type=whole(0, 256), default=1, metavar="N",
        help="so many processes of this machine; 0 takes as many as there are cores (1)",
    )  # fmt: skip
    who.add_argument(
        "--scheduler", metavar="ADDRESS",
        help="the workers of a scheduler of Dask, as tcp://head:8786, which see the folder and the "
        "clouds under the same names",
    )  # fmt: skip
    who.add_argument(
        "--part", type=region, metavar="K/N", help="part the Kth of N shares of the clouds alone"
    )
    who.add_argument(
        "--build", type=region, metavar="K/N", help="make the Kth of N shares of the tiles alone"
    )


def do(options, settings):
    """Does what the words ask for, and answers the status; `settings` are those of new tiles."""
    folder = options.folder
    is_alone, is_new = not (options.part or options.build), bool(options.clouds and settings)
    if not is_new:
        expect_tiles(folder)
    try:
        with contextlib.ExitStack() as stack:
            stack.enter_context(files.made(folder))
            if is_alone:
                stack.enter_context(files.writing(folder))
            # (before a run is begun, which a wrong address would leave there)
            engine = stack.enter_context(engines.closing(_engine(options)))
            run = _begun(options, settings)
            return DONE if run is None else _do(options, run, engine)
    except KeyboardInterrupt:
        raise KeyboardInterrupt(KEPT) from None


def _begun(options, settings):
    """The run that is to be done, or None."""
    folder = options.folder
    if options.clouds:
        run = steps.begin(folder, options, settings, getattr(options, "again", False))
        said = "the tiles have these clouds already"
    else:
        run, said = steps.resume(folder), "no run is begun"
        if run is None and files.read_index(folder) is None:
            raise Unusable("no clouds are given, and no run is begun", folder)
    if run is None and not options.quiet:
        say(f"{folder}: {said}: there is nothing to be done")
    return run


def _do(options, run, engine):
    folder, shown = options.folder, Steps(is_terminal() and not options.quiet)

    def told(what, job, done, count, total):
        shown.show(STEPS[what], count, total)
        for line in done.get("said", ()):
            say(line)

    try:
        if options.part:
            jobs = runs.share(steps.chunks(folder, run), *options.part)
            engines.each(engine, steps.part, folder, run, jobs, told)
            return DONE
        if options.build:
            jobs = runs.share(steps.gathered(folder, run)["slices"], *options.build)
            engines.each(engine, steps.build, folder, run, jobs, told)
            return DONE
        found = runs.do(folder, run, engine, told)
    finally:
        shown.close()
    if not options.quiet:
        say("; ".join(_closing_words(found)))
    return SKIPPED if found["skipped"] or found["gaps"] else DONE


def _engine(options):
    if options.scheduler:
        return engines.Scheduler(options.scheduler)
    jobs = options.jobs or len(os.sched_getaffinity(0))
    return engines.Processes(jobs) if jobs > 1 else engines.Engine(engines.Here())


def _closing_words(told):
    counts = SimpleNamespace(count=told["skipped"])
    scans = SimpleNamespace(skips=counts, gaps=told["gaps"], left=Left(**told["left"]))
    yield f"{told['scans']} scans of {told['points']} points in {told['tiles']} tiles"
    if scans.left.cut:
        yield f"{scans.left.cut} beams cut by --range"
    yield from left_out(scans)
