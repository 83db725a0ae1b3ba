#!/usr/bin/env python3
"""Makes tiles of 10,000 scans of 100,000 points at 0.1 m, 10^9 beams along 20 km of a street
(bench/make_street.py), as a user does: `octofix tiles build`, and then `octofix tiles add` for
each more run of scans.

    bench/many_scans.py FOLDER [--library FOLDER] [--scans N] [--run N] [--jobs N] [--minutes M]

FOLDER gets `clouds`, with the 40 clouds of the street and poses of 10,000 scans, `tiles`, and
`figures.json` with what each run took. While a run goes on `scans` has a copy of its cloud for each
scan, since a file counts once. A call goes on behind the last run that is whole, also where one was
killed, and where M minutes are given it begins no run behind them, and ends with status 1.

--scans N makes so many (10,000), --run N adds so many at once (500), and --jobs N are the processes
(0: as many as there are cores). Prints a line for each run, and then a table of all: processor time
of all processes, the peak of the largest one, and the bytes of the tiles. Runs that were begun more
than once count in the table's bytes and not in its times. Needs a Python with numpy, a C compiler
with Python.h, 100 MB of memory a process, and for all of it 6 GB of disk and 65 minutes of a core.
"""
import json
import multiprocessing
import os
import shutil
import subprocess
import sys
import time
from pathlib import Path

ROOT = Path(__file__).resolve().parent.parent
sys.path[:0] = [str(ROOT / "tools/check"), str(ROOT / "bench")]

import make_street  # noqa: E402
import options  # noqa: E402

SCANS, IN_A_RUN, COLUMNS, RESOLUTION, REACH, EDGE = 10_000, 500, 1580, 0.1, 30, 25.6
TIMES = ("processor", "wall")


class Fault(Exception):
    """Why there are no figures, in one line."""


def waited(process):
    """The seconds of the processor that a process and all that it began took, and the peak of the
    largest of them in MB; Fault where it ends with another status than 0."""
    _, status, used = os.wait4(process.pid, 0)
    process.returncode = os.waitstatus_to_exitcode(status)
    if process.returncode:
        raise Fault(f"{' '.join(process.args[:6])} .. ended with status {process.returncode}")
    return used.ru_utime + used.ru_stime, used.ru_maxrss / 1000


class Drive:
    """A drive of scans in a folder, and its tiles as far as they are made."""

    def __init__(self, folder, library, jobs):
        self.folder, self.jobs = Path(folder).resolve(), jobs
        self.clouds, self.record = self.folder / "clouds", self.folder / "figures.json"
        self.environment = {
            **os.environ,
            "OCTOFIX_LIBRARY": f"{library}/liboctofix.so.1",
            "PYTHONPATH": str(ROOT / "bindings/python"),
        }
        self.runs = json.loads(self.record.read_text()) if self.record.exists() else []

    def write(self):
        """Writes the clouds and the poses where they aren't there. (By a process of its own: those
        that this one begins would have its peak of memory.)"""
        if self.clouds.exists():
            return
        new = self.folder / "clouds.new"
        spawned = multiprocessing.get_context("spawn")
        writer = spawned.Process(target=make_street.write, args=(new, SCANS, COLUMNS))
        writer.start()
        writer.join()
        if writer.exitcode:
            raise Fault("the clouds can't be written")
        new.rename(self.clouds)

    def octofix(self, *words, **how):
        words = [sys.executable, "-m", "octofix", "tiles", *map(str, words)]
        return subprocess.Popen(words, env=self.environment, **how)

    def info(self):
        with self.octofix("info", self.folder / "tiles", "--json", stdout=subprocess.PIPE) as asked:
            said = asked.stdout.read()
            waited(asked)
        return json.loads(said)

    def done(self):
        """How many scans the tiles have."""
        return sum(it["scans"] for it in self.runs if it["is_whole"])

    def add(self, count):
        """Adds a run of so many scans, or goes on with one that was begun; what it took."""
        if not self.runs or self.runs[-1]["is_whole"]:
            self.runs.append({"first": self.done(), "scans": count, "begun": 0, "is_whole": False})
        run = self.runs[-1]
        run["begun"] += 1
        self.save()
        names = self.copies(run["first"], run["scans"])
        began = time.monotonic()
        run["processor"], run["peak"] = waited(self.octofix(*self.words(run["first"]), *names))
        run["wall"], run["is_whole"] = time.monotonic() - began, True
        self.save()
        shutil.rmtree(self.folder / "scans")
        return run

    def words(self, first):
        told = ["add", self.folder / "tiles"]
        if first == 0:
            told = ["build", self.folder / "tiles", "--res", RESOLUTION, "--edge", EDGE]
        poses = ["--poses", self.clouds / "poses.txt", "--by-time", "--range", REACH]
        return [*told, *poses, "--jobs", self.jobs, "--quiet"]

    def copies(self, first, count):
        """The names of the clouds of scans, which say their times. A copy has the time of what it
        is made of, by which a run that goes on knows it."""
        names = []
        (self.folder / "scans").mkdir(exist_ok=True)
        for number in range(first, first + count):
            names.append(self.folder / f"scans/{number:05}.npy")
            shutil.copy2(self.clouds / f"{number % make_street.PLACES:03}.npy", names[-1])
        return names

    def save(self):
        new = self.record.with_suffix(".new")
        new.write_text(json.dumps(self.runs, indent=1))
        new.rename(self.record)


def shown(run):
    said = f"scans {run['first']} to {run['first'] + run['scans'] - 1}: "
    said += f"{run['processor']:.1f} s of processor time, {run['wall']:.1f} s in all, "
    again = f"; begun {run['begun']} times" if run["begun"] > 1 else ""
    return f"{said}a peak of {run['peak']:.0f} MB{again}"


def table(drive):
    """Rows of what all runs took, and what came of it."""
    found = drive.info()
    whole = [it for it in drive.runs if it["is_whole"]]
    timed = [it for it in whole if it["begun"] == 1]
    points = [it["points"] for it in found["runs"]]
    beams = sum(many for many, it in zip(points, whole) if it["begun"] == 1)
    processor, wall = (sum(it[which] for it in timed) for which in TIMES)
    scans, jobs = sum(it["scans"] for it in timed), drive.jobs or len(os.sched_getaffinity(0))
    yield "scans", f"{drive.done()}"
    yield "points", f"{sum(points)}"
    yield "runs", f"{len(whole)}, of which {len(timed)} are timed, with {scans} scans"
    if timed:
        yield "processor time", f"{processor:.0f} s"
        yield "of it a scan", f"{processor / scans * 1e3:.1f} ms"
        yield "of it a point", f"{processor / beams * 1e9:.0f} ns"
        yield "time", f"{wall:.0f} s with {jobs} processes"
    yield "largest process", f"{max((it['peak'] for it in whole), default=0):.0f} MB"
    yield "tiles", f"{found['tiles']} of {found['edge']:g} m"
    yield "bytes of tiles", f"{found['bytes'] / 1e6:.0f} MB"
    yield "bytes in the folder", f"{on_disk(drive.folder / 'tiles') / 1e6:.0f} MB"


def on_disk(folder):
    """The bytes of all files, also of those that the last run replaced."""
    return sum(it.stat().st_size for it in folder.rglob("*") if it.is_file())


def main():
    parser = options.parser(__doc__)
    parser.add_argument("folder", metavar="FOLDER")
    parser.add_argument("--scans", type=int, default=SCANS, metavar="N")
    parser.add_argument("--run", type=int, default=IN_A_RUN, metavar="N")
    parser.add_argument("--jobs", type=int, default=0, metavar="N")
    parser.add_argument("--minutes", type=float, default=float("inf"), metavar="M")
    given = parser.parse_args()
    if not 0 < given.scans <= SCANS or given.run < 1:
        parser.error(f"there are 1 to {SCANS} scans, and 1 or more in a run")
    os.makedirs(given.folder, exist_ok=True)
    began, drive = time.monotonic(), Drive(given.folder, options.library_of(given), given.jobs)
    try:
        waited(subprocess.Popen([sys.executable, ROOT / "bindings/python/octofix_compile.py"]))
        drive.write()
        while drive.done() < given.scans and time.monotonic() - began < 60 * given.minutes:
            print(shown(drive.add(min(given.run, given.scans - drive.done()))), flush=True)
        for name, text in table(drive) if drive.done() else ():
            print(f"{name:20} {text}")
    except Fault as why:
        sys.exit(f"many_scans: {why}")
    return drive.done() < given.scans


if __name__ == "__main__":
    sys.exit(main())
