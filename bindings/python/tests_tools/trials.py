"""Runs of the tools in processes that are forked from this one, which has imported all that they
need, so that thousands take little time: interrupted, without room, and two at once.

Whatever comes, each output is what it was or whole, all outputs of a run are of one moment, nothing
else is left, what is said are lines of the tools, and a run ends.
"""

import contextlib
import os
import random
import resource
import shutil
import signal
import sys
import time
import warnings
from dataclasses import dataclass, field
from pathlib import Path

import numpy as np
from driving import save_drive
from running import octofix, old

from octofix import _program, tiles

LONGEST = 30
SIGNALS = (signal.SIGINT, signal.SIGINT, signal.SIGTERM, signal.SIGHUP, signal.SIGKILL)
STATUSES = {"done": (0, 3), "refused": (1,), "ended": (130, -signal.SIGINT)}
# What a run that is killed may leave beside an output.
PART = ".octofix-"


class WrongError(AssertionError):
    """What must not be."""


@dataclass
class Case:
    """The words of a command and the outputs that it has; `wholes` are what these may become, of
    which the last one is what a run that isn't ended makes."""

    words: tuple
    outputs: tuple = ()
    wholes: list = field(default_factory=list)
    seconds: float = 0.1


@dataclass(frozen=True)
class Ended:
    """A run that ended: by this status, or the signal below 0, and what it said."""

    status: int
    said: str


class Place:
    """A folder for runs, with what they read beside it."""

    def __init__(self, folder):
        self.given, self.folder = Path(folder, "given"), Path(folder, "work")
        self.given.mkdir()
        os.chdir(self.given)
        self.drive = save_drive(4, 40)
        for name, words in GIVEN.items():
            done(*words, *self.drive, "-o", f"{name}.bt", "--snapshot", f"{name}.snap")
        for number in "12":
            words = "map", "--res", 0.2, "--region", f"{number}/2", *self.drive
            done(*words, "--snapshot", f"{number}.snap")
        done("tiles", "build", "town", "--res", 0.2, "--edge", 6.4, *self.drive)
        np.save("more.npy", [[3.0, 0, 0], [0, 2, 1]])

    def fresh(self, outputs=()):
        """An empty folder but for old outputs, in which the process is then."""
        os.chdir(self.given)
        shutil.rmtree(self.folder, ignore_errors=True)
        self.folder.mkdir()
        os.chdir(self.folder)
        for name in outputs:
            Path(name).write_bytes(old(name))


GIVEN = {"a": ("map", "--res", 0.2), "b": ("map", "--res", 0.2, "--min-range", 1)}


def done(*words):
    ran = octofix(*words)
    if ran.status != 0:
        raise WrongError(ran.said)


def cases(place):
    """Commands of all kinds. Those of maps may end behind each scan."""
    at = place.given
    drive = [str(at / it) if (at / it).exists() else it for it in place.drive]
    map_, box = ("map", "--res", 0.2), ("--box", -2, -2, -2, 2, 2, 2)
    three = "-o", "o.bt", "--snapshot", "o.snap", "--script", "o.txt"
    two, outputs = ("-o", "o.bt", "--snapshot", "o.snap"), ("o.bt", "o.snap")
    found = [
        Case((*map_, *drive, *three), (*outputs, "o.txt")),
        Case((*map_, "--jobs", 3, *drive, *three), (*outputs, "o.txt")),
        Case(("map", "--from", at / "a.snap", *drive, *two), outputs),
        Case(("merge", at / "1.snap", at / "2.snap", *two), outputs),
        Case(("crop", at / "a.snap", *box, *two), outputs),
        Case(("shift", at / "a.bt", "--voxels", 1, 2, 3, *two), outputs),
        Case(("coarsen", at / "a.snap", "--depth", 14, *two), outputs),
        Case(("grid", at / "a.bt", "-o", "o.pgm", "--frontier", "o.csv"),
             ("o.pgm", "o.yaml", "o.csv")),
        Case(("view", at / "a.snap", "-o", "o.html"), ("o.html",)),
        Case(("view", at / "a.bt", "--oblique", "--width", 64, "-o", "o.png"), ("o.png",)),
        Case(("info", at / "a.snap")), Case(("compare", at / "a.bt", at / "b.snap")),
        Case(("check", at / "a.bt", *drive)),
        Case(("tiles", "crop", at / "town", *two), outputs),
        Case(("tiles", "info", at / "town")),
    ]  # fmt: skip
    forms = ("ply", "pcd", "xyz", "csv", "npy")
    found += [Case(("points", at / "a.bt", "-o", f"o.{it}"), (f"o.{it}",)) for it in forms]
    for it in found:
        _measure(place, it, drive)
    return found


def _measure(place, case, drive):
    """Notes what a run makes, and how long it takes."""
    clouds = [it for it in drive if it.endswith(".npy")]
    is_map = case.words[0] == "map"
    for count in range(1, len(clouds) + 1) if is_map else [None]:
        left = clouds[count:] if is_map else []
        place.fresh(case.outputs)
        began = time.monotonic()
        # (poses in turn are as many as clouds)
        words = [_fewer(it, count) if it == drive[1] and is_map else it for it in case.words]
        ended = run([it for it in words if it not in left]).wait()
        case.seconds = time.monotonic() - began
        if ended.status != 0:
            raise WrongError(f"{case.words}: {ended}")
        case.wholes.append(contents(case))


def _fewer(name, count):
    """A file of the first poses of another one."""
    lines = Path(name).read_text().splitlines(keepends=True)
    fewer = Path(name).with_name(f"first-{count}.txt")
    fewer.write_text("".join(lines[: count + 1]))
    return str(fewer)


def contents(case):
    return [Path(it).read_bytes() if os.path.exists(it) else None for it in case.outputs]


class run:
    """A run of a command in a process of its own, which has begun when this is made."""

    def __init__(self, words, limit=None):
        ready, begun = os.pipe()
        # (no file, since these have bounds)
        self.said, said = os.pipe()
        self.process = os.fork()
        if self.process == 0:
            self._work([str(it) for it in words], begun, said, limit)
        os.close(begun)
        os.close(said)
        os.read(ready, 1)
        os.close(ready)

    def _work(self, words, begun, said, limit):
        """What the new process does."""
        status = 99
        try:
            signal.signal(signal.SIGINT, signal.SIG_DFL)
            # (a file that is closed as it goes is no fault)
            warnings.simplefilter("ignore", ResourceWarning)
            os.dup2(said, 2)
            os.dup2(os.open("/dev/null", os.O_WRONLY), 1)
            sys.stderr, sys.stdout = open(2, "w", buffering=1), open(1, "w")
            sys.argv = ["octofix", *words]
            if limit is not None:
                resource.setrlimit(resource.RLIMIT_FSIZE, (limit, resource.RLIM_INFINITY))
            os.write(begun, b".")
            _program.run()
        except SystemExit as end:
            status = end.code or 0
        except BaseException:
            sys.excepthook(*sys.exc_info())
        finally:
            with contextlib.suppress(Exception):
                sys.stderr.flush()
            os._exit(status)

    def send(self, number):
        with contextlib.suppress(ProcessLookupError):
            os.kill(self.process, number)

    def wait(self):
        until = time.monotonic() + LONGEST
        while True:
            process, status = os.waitpid(self.process, os.WNOHANG)
            if process:
                break
            if time.monotonic() > until:
                os.kill(self.process, signal.SIGKILL)
                os.waitpid(self.process, 0)
                raise WrongError(f"it takes more than {LONGEST} s")
            time.sleep(0.001)
        with open(self.said, errors="replace") as said:
            return Ended(os.waitstatus_to_exitcode(status), said.read())


def judge(case, ended, *, may_lack=(), expected=("done", "ended")):
    """Raises WrongError where a run has lost something, or left something else."""
    killed = ended.status in (-signal.SIGKILL, -signal.SIGTERM, -signal.SIGHUP)
    kinds = [kind for kind, statuses in STATUSES.items() if ended.status in statuses]
    if not killed and not {*kinds} & {*expected}:
        raise WrongError(f"the status is {ended.status}")
    others = [it for it in ended.said.splitlines() if not it.startswith("octofix: ")]
    if others:
        raise WrongError(f"it says {others[:3]}")
    names = {it for it in os.listdir() if not (killed and it.startswith(PART))}
    left = names - {*case.outputs} - {f"{it}.partial" for it in may_lack}
    if left:
        raise WrongError(f"it leaves {sorted(left)}")
    found = contents(case)
    olds = [old(it) for it in case.outputs]
    if ended.status in STATUSES["done"] and found != case.wholes[-1]:
        raise WrongError("its outputs aren't whole, with status 0")
    if found != olds and found not in case.wholes and not (killed and _is_between(case, found)):
        raise WrongError("its outputs are neither old nor of one moment")
    if "refused" in kinds and found != olds:
        raise WrongError("it was refused, and the old outputs are gone")


def _is_between(case, found):
    """Whether each output is whole or old, as where a run is killed between two of them."""
    return all(
        it == old(name) or it in [whole[at] for whole in case.wholes]
        for at, (name, it) in enumerate(zip(case.outputs, found))
    )


# -- the trials, each of a seed


def interrupted(place, found, chance):
    """Signals come at any time, one or two."""
    case = chance.choice(found)
    place.fresh(case.outputs)
    running = run(case.words)
    time.sleep(chance.uniform(0, 1.2) * case.seconds)
    running.send(chance.choice(SIGNALS))
    if chance.random() < 0.3:
        time.sleep(chance.uniform(0, 0.3) * case.seconds)
        running.send(chance.choice(SIGNALS))
    judge(case, running.wait())


def full(place, found, chance):
    """A disk takes only so many bytes of each file."""
    case = chance.choice([it for it in found if it.outputs])
    place.fresh(case.outputs)
    most = max(map(len, filter(None, case.wholes[-1])))
    ended = run(case.words, limit=chance.randrange(most + 1)).wait()
    is_map = case.words[0] == "map"
    judge(case, ended, may_lack=case.outputs if is_map else (), expected=("done", "refused"))


def beside(place, found, chance):
    """Two write the same outputs, and one of them has its way."""
    first = chance.choice([it for it in found if it.outputs])
    others = [it for it in found if it.outputs == first.outputs]
    second = chance.choice(others)
    place.fresh(first.outputs)
    runs = [run(it.words) for it in (first, second)]
    ends = [it.wait() for it in runs]
    both = Case(first.words, first.outputs, [*first.wholes[-1:], *second.wholes[-1:]])
    if [it.status for it in ends] != [0, 0]:
        raise WrongError(f"one of two fails: {ends}")
    # (outputs of two runs may stand side by side, each whole)
    if not _is_between(both, contents(both)) or {*os.listdir()} - {*first.outputs}:
        raise WrongError("what two write isn't what one of them writes")


def tiled(place, found, chance):
    """A run of tiles is interrupted: they are as they were, or whole, and it goes on."""
    place.fresh()
    shutil.copytree(place.given / "town", "town")
    before = Path("town/index.json").read_bytes()
    words = ["tiles", "add", "town", "--quiet", place.given / "more.npy", "--res"][:-1]
    running = run(words)
    time.sleep(chance.uniform(0, 0.06))
    running.send(chance.choice(SIGNALS))
    ended = running.wait()
    _expect_tiles(before, ended)
    again = run(words).wait()
    if again.status != 0 or again.said:
        raise WrongError(f"it doesn't go on: {again}")
    _expect_tiles(before, again)
    with tiles.Tiles("town") as town:
        if len(town.info()["runs"]) != 2 or town.get([[3.1, 0.1, 0.1]])[0] < 0:
            raise WrongError("the tiles lack what was added")


def _expect_tiles(before, ended):
    others = [it for it in ended.said.splitlines() if not it.startswith("octofix: ")]
    if others:
        raise WrongError(f"it says {others[:3]}")
    with tiles.Tiles("town") as town:
        if town.check():
            raise WrongError(f"the tiles aren't whole: {town.check()[0]}")
    if ended.status == 0 and Path("town/index.json").read_bytes() == before:
        raise WrongError("the tiles are as they were, with status 0")


KINDS = (interrupted,) * 12 + (full,) * 3 + (beside,) * 2 + (tiled,) * 3


def tried(place, found, seed):
    """Does the trial of a seed, and answers what is wrong, or nothing."""
    chance = random.Random(seed)
    kind = KINDS[seed % len(KINDS)]
    try:
        kind(place, found, chance)
    except WrongError as why:
        return f"{seed}, {kind.__name__}: {why}"
    return ""
