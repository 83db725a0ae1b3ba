#!/usr/bin/env python3
"""Runs checks of this repository, side by side, and says which passed:

    ./octomap check [--unproved] [--nightly] [--jobs N] [--list] [NAME ..]

Without names all of the default set, or with --nightly those that take longer; --list prints the
table of both. They look at the proved program and library, which are proved first where they
aren't built or a source is newer, or with --unproved at builds without proof. Ends with 0 where
all that were run have passed. The last line counts them, and what they left out.
"""
import argparse
import contextlib
import functools
import os
import re
import signal
import subprocess
import sys
import tempfile
import threading
import time
from concurrent.futures import ThreadPoolExecutor, as_completed
from pathlib import Path

ROOT = Path(__file__).resolve().parents[2]
sys.dont_write_bytecode = True
sys.path.insert(0, str(ROOT / "tools/build"))
import ending  # noqa: E402
import suites  # noqa: E402

# What is shown of a suite that failed.
SHOWN = 200
# How many seconds of the clock a suite may take; those of a night as many times more.
MOST, NIGHTS = 1800, 10
NAMES = {it.name: it for it in suites.SUITES}


class Runs:
    """The processes of the suites that run, each with all that it starts, so that they end with
    this one."""

    def __init__(self, most):
        self.groups, self.lock, self.are_over = set(), threading.Lock(), False
        self.most = most

    def run(self, words, said):
        """Runs a command with its output in a file, and returns its status."""
        how = {"cwd": ROOT, "stdin": subprocess.DEVNULL, "stdout": said, "start_new_session": True}
        with self.lock:
            if self.are_over:
                return 1
            ran = subprocess.Popen(words, stderr=subprocess.STDOUT, **how)
            self.groups.add(ran.pid)
        try:
            status = ran.wait(timeout=self.most)
        except subprocess.TimeoutExpired:
            said.write(b"it took too long, and was ended\n")
            os.killpg(ran.pid, signal.SIGTERM)
            status = ran.wait() or 1
        with self.lock:
            self.groups.discard(ran.pid)
        return status

    def end(self):
        with self.lock:
            self.are_over = True
            for group in self.groups:
                with contextlib.suppress(ProcessLookupError):
                    os.killpg(group, signal.SIGTERM)


def parsed(words):
    text, _, _ = __doc__.partition("\n\n")
    parser = argparse.ArgumentParser(prog="octomap check", description=text)
    parser.add_argument("--unproved", action="store_true", help="look at builds without proof")
    parser.add_argument("--nightly", action="store_true", help="run what takes longer")
    parser.add_argument("--jobs", type=int, default=os.cpu_count(), metavar="N",
                        help="how many run side by side (as many as there are processors)")
    parser.add_argument("--list", action="store_true", help="print the table of all")
    parser.add_argument("names", nargs="*", metavar="NAME", help="run these alone")
    given = parser.parse_args(words)
    for name in given.names:
        if name not in NAMES:
            parser.error(f"there is no check '{name}' (--list shows all)")
    if given.jobs < 1:
        parser.error("--jobs takes a number from 1 on")
    return given


def chosen(given):
    """The suites to run, those that take longest first."""
    wanted = suites.NIGHTLY if given.nightly else suites.DEFAULT
    found = [NAMES[it] for it in dict.fromkeys(given.names)] or [
        it for it in suites.SUITES if it.set == wanted]
    return sorted(found, key=lambda it: -it.seconds)


def print_table():
    for name in (suites.DEFAULT, suites.NIGHTLY):
        print(f"{name}:")
        for it in suites.SUITES:
            if it.set == name:
                needs = it.all_needs()
                print(f"  {it.name:15}{it.seconds:5} s  {it.does}{needs and f' ({needs})'}")


def built(how, *words):
    """Where the launcher's build of something is. It says itself what is wrong."""
    done = subprocess.run([ROOT / "tools/check/built", how, *words], stdout=subprocess.PIPE,
                          stdin=subprocess.DEVNULL, text=True)
    if done.returncode:
        sys.exit(done.returncode)
    return done.stdout.strip()


@functools.cache
def python_with_numpy():
    """The first Python that has numpy, as tools/check/options.sh looks for it, or this one."""
    for it in os.environ.get("PYTHON", "python3 /usr/bin/python3").split():
        with contextlib.suppress(FileNotFoundError):
            if not subprocess.run([it, "-c", "import numpy"], stderr=subprocess.DEVNULL).returncode:
                return it
    return sys.executable


def command_of(suite, places):
    """The words of a suite's command, with what stands for places in it."""
    found = [word for it in suite.words.split() for word in places.get(it, [it])]
    words = [str(ROOT / found[0]), *found[1:]]
    return [python_with_numpy(), *words] if found[0].endswith(".py") else words


def places_for(found, given, room):
    """What the words of these suites stand for, built where one of them needs it."""
    words = {word for it in found for word in it.words.split()}
    how = "--unproved" if given.unproved else "--proved"
    places = {"proved": [] if given.unproved else ["--proved"]}
    if "program" in words:
        places["program"] = ["--program", built(how, "program")]
    if "library" in words:
        places["library"] = ["--library", built(how, "library", f"{room}/library")]
    return places


def run(suite, words, runs, room):
    """Runs a suite, and returns it with whether it passed, its seconds and what it said."""
    began, name = time.monotonic(), Path(room, f"{suite.name}.said")
    with open(name, "wb") as said:
        status = runs.run(words, said)
    text = name.read_text(errors="replace")
    return suite, status, time.monotonic() - began, text.splitlines()


def tell(suite, status, seconds, said):
    """Says how a suite ended; of one that failed all that it said, or its end."""
    if status:
        print(*said[-SHOWN:], sep="\n")
        print(f"{suite.name} FAILED with status {status} after {seconds:.0f} s", flush=True)
    else:
        print(f"{suite.name} passed in {seconds:.0f} s", flush=True)


def left_out_by(suite, said):
    """How much a suite says that it left out, and what."""
    for line in said:
        found = re.match(r"left out: (\d+) (.*)", line)
        if found:
            yield int(found[1]), f"{suite.name} {found[1]} {found[2]}"


def run_all(found, given, room):
    """Runs the suites, and returns whether all passed."""
    skipped = [it for it in found if it.only_proved and given.unproved]
    found = [it for it in found if it not in skipped]
    runs = Runs(MOST * (NIGHTS if given.nightly else 1))
    places, failed = places_for(found, given, room), []
    left_out = [(1, f"{it.name}, which is of a proved build") for it in skipped]
    with ThreadPoolExecutor(given.jobs) as pool:
        try:
            tasks = [pool.submit(run, it, command_of(it, places), runs, room) for it in found]
            for task in as_completed(tasks):
                suite, status, seconds, said = task.result()
                tell(suite, status, seconds, said)
                left_out += left_out_by(suite, said)
                failed += [suite.name] if status else []
        except KeyboardInterrupt:
            runs.end()
            raise
    for _, what in left_out:
        print(f"left out: {what}")
    print(f"{len(found) - len(failed)} checks passed, {len(failed)} failed"
          f"{': ' * bool(failed)}{', '.join(failed)}; left out: {sum(n for n, _ in left_out)}")
    return not failed


def main(words):
    given = parsed(words)
    if given.list:
        signal.signal(signal.SIGPIPE, signal.SIG_DFL)
        print_table()
        return 0
    with tempfile.TemporaryDirectory() as room:
        return 0 if run_all(chosen(given), given, room) else 1


if __name__ == "__main__":
    with ending.silent():
        sys.exit(main(sys.argv[1:]))
