#!/usr/bin/env python3
"""Proves and builds the program, or the static library, and all crates that it stands on.

    tools/build/proved.py [--after-ci] CRATE JOBS LOG

As many crates as there are jobs are proved side by side, where they don't stand on each other, and
first those with the heaviest chain of crates above them. While there are enough of them each has
one job, since with several it takes a quarter more of the processors; where there are fewer, each
has up to four. What the kit says goes to LOG, and standard error has a line for each crate that is
done. Ends with 0 where all is proved and CRATE is built, as out/CRATE, or of a static library as
out/libCRATE.a, beside out/CRATE.ir, the LLVM module that the kit compiled it from.

A library is built as `rt verdict` builds it: from nothing, and with its statements alone, without
their proofs. That is a third of what `rt lib` writes, and a crate reads those of all crates below.
They stand in the program's out/rlib, where no command of the kit builds or takes a library, with a
sum of what each was made from. The next start takes them as long as that is the same.

With --after-ci CRATE alone is proved and built, by so many jobs, over the libraries that rt ci has
left in the crates' own folders. Only who has just seen rt ci pass there may say so.
"""
import argparse
import hashlib
import importlib.util
import os
import shutil
import signal
import subprocess
import sys
import time
from concurrent.futures import FIRST_COMPLETED, ThreadPoolExecutor, wait
from pathlib import Path

import crates
import ending
from unproved import TARGET, kit_folder, make_keeper, put

PLACE = crates.ROOT / "crates/octomap_cli/out/rlib"
MOST_JOBS = 4
# The share of a crate's time that is left of it with so many jobs.
WITH_JOBS = 0.4
# A clang that keeps the module which the kit has it compile, in the folder of the toolchain.
KEEPER = """#!/bin/sh
kept=$(dirname -- "$(dirname -- "$0")")
[ ! -f module.bc ] || cp -- module.bc "$kept/module.bc" || exit
exec "$(dirname -- "$0")/kit-clang" "$@"
"""
# What reading a byte of the crates below costs, where proving one of its own costs 1.
READING = 0.006


def say(text):
    print(f"octomap: {text}", file=sys.stderr, flush=True)


def load_rtlib():
    """The module of the kit that has the words by which a crate is built."""
    sys.dont_write_bytecode = True  # (the kit's folder stays as it is)
    spec = importlib.util.spec_from_file_location("rtlib", kit_folder() / "bin/rtlib.py")
    made = importlib.util.module_from_spec(spec)
    spec.loader.exec_module(made)
    return made


def text_of(file):
    try:
        return file.read_text()
    except FileNotFoundError:
        return ""


class Work:
    """The crates of a start, as the kit reads them, lowest first. Their libraries stand in a given
    folder, or each in its crate's own, where the kit's commands have them."""

    def __init__(self, target, log, place=None):
        self.kit, self.log = load_rtlib(), log
        known = {}
        top = self.kit.Crate(str(crates.ROOT / "crates" / target), str(crates.ROOT), known)
        for it in known.values() if place else ():
            it.rlib = f"{place}/{it.name}.rlib"
        self.crates = {it.name: it for it in (*top.below(), top)}
        self.uses = {name: [dep.name for dep in it.deps] for name, it in self.crates.items()}
        # For each library that is built, what its stamp says: its sum, and a word of its own build.
        self.stamps = {}
        with open(f"{self.kit.KIT}/WHAT", "rb") as file:
            self.what = file.read(), os.stat(self.kit.RATTLE).st_mtime_ns

    def sum_of(self, name):
        """A sum of what the crate is made from, the very builds of the libraries below among it."""
        crate = self.crates[name]
        below = [self.stamps[it.name] for it in crate.below()]
        found = hashlib.sha256(repr((self.what, crate.said, below)).encode())
        for file in self.kit.files_of(crate.folder):
            with open(file, "rb") as it:
                found.update(repr((os.path.relpath(file, crate.folder), it.read())).encode())
        return found.hexdigest()

    def take_kept(self):
        """Takes the libraries of earlier starts that are made from what stands here now."""
        for name, crate in self.crates.items():
            if crate.makes_rlib() and all(it in self.stamps for it in self.uses[name]):
                stamp = text_of(PLACE / f"{name}.stamp")
                if stamp.partition(" ")[0] == self.sum_of(name) and os.path.isdir(crate.rlib):
                    self.stamps[name] = stamp

    def call(self, name, words):
        """Has the kit do this in the crate's folder, and returns its status."""
        how = {"stdin": subprocess.DEVNULL, "stdout": subprocess.PIPE, "stderr": subprocess.STDOUT}
        words, began = [*self.kit.guarded(), *words], time.monotonic()
        with subprocess.Popen(words, cwd=self.crates[name].folder, **how) as ran:
            said = ran.stdout.read()
            _, status, used = os.wait4(ran.pid, 0)
            ran.returncode = os.waitstatus_to_exitcode(status)
        took = time.monotonic() - began, used.ru_utime + used.ru_stime
        head = "== {}: {:.0f} s, {:.0f} s of the processors, status {}\n"
        self.log.write(head.format(name, *took, ran.returncode).encode() + said)
        self.log.flush()
        return ran.returncode

    def prove(self, name, jobs):
        """Proves and builds the crate, once more with one job where the system killed it."""
        crate = self.crates[name]
        words, known = crate.words(["--jobs", str(jobs)]), self.kit.help_of("build")
        if crate.makes_rlib():
            words += ["--statements"] * ("--statements" in known) + ["-o", crate.rlib]
        else:
            words += ["--backend", "llvm"] * ("--backend" in known)
            words += ["-o", f"out/lib{name}.a" if crate.is_static else f"out/{name}.o"]
        status = self.compile(name, [self.kit.RATTLE, "build", *words])
        if status == -signal.SIGKILL and jobs > 1:
            return self.prove(name, 1)
        return status

    def compile(self, name, words):
        """Has the kit do this, with its toolchain where code is made, and keeps the module of a
        static library."""
        crate, kit = self.crates[name], Path(self.kit.KIT)
        if crate.makes_rlib():
            return self.call(name, words)
        if not crate.is_static:
            return self.call(name, [*words, "--toolchain", kit / "toolchain"])
        # (a Ctrl-C, which ends this at once, may leave it for the next start)
        room = Path(crate.folder, "out/toolchain")
        shutil.rmtree(room, ignore_errors=True)
        make_keeper(kit, room, KEEPER)
        status = self.call(name, [*words, "--toolchain", room])
        if not status:
            put(room / "module.bc", Path(crate.folder, f"out/{name}.ir"))
        shutil.rmtree(room)
        return status

    def link(self, name):
        kit = self.kit.KIT
        words = ["--target", TARGET, "--toolchain", f"{kit}/toolchain", "-o", f"out/{name}"]
        words += [f"out/{name}.o", f"{kit}/c/libos_c.a", f"{kit}/c/liblibc_c.a"]
        return self.call(name, [f"{kit}/bin/rattle-link", *words])

    def build(self, name, jobs):
        """Builds the crate, over the libraries below it, and returns the kit's status."""
        crate = self.crates[name]
        if crate.makes_rlib():
            return self.build_library(name, jobs)
        os.makedirs(f"{crate.folder}/out", exist_ok=True)
        return self.prove(name, jobs) or (crate.is_program and self.link(name))

    def build_library(self, name, jobs):
        """Builds a library that others stand on, and keeps what it was made from."""
        crate, stamp, sum = self.crates[name], PLACE / f"{name}.stamp", self.sum_of(name)
        stamp.unlink(missing_ok=True)
        shutil.rmtree(crate.rlib, ignore_errors=True)
        status = self.prove(name, jobs)
        if not status and self.sum_of(name) != sum:
            return say(f"a source of {name} was changed while it was proved") or 1
        if not status:
            self.stamps[name] = f"{sum} {os.urandom(8).hex()}"
            stamp.write_text(self.stamps[name])
        return status


class Progress:
    """How much is proved, and about how long the rest will take."""

    def __init__(self, work, jobs):
        self.uses, self.below = work.uses, {}
        for name, crate in work.crates.items():
            self.below[name] = [it.name for it in crate.below()]
        self.weights = self.weigh()
        self.chains = self.chain()
        self.left, self.jobs, self.began = set(self.uses), min(jobs, MOST_JOBS), time.monotonic()
        self.left -= set(work.stamps)
        self.all = sum(self.weights[it] for it in self.left)
        if work.stamps:
            say(f"{len(work.stamps)} of {len(self.uses)} crates are proved since an earlier start")

    def size(self, name, *parts):
        """The bytes of these parts of the crate, without tests."""
        folder = crates.ROOT / "crates" / name
        files = [it for at in parts for it in (folder / at).rglob("*") if it.is_file()]
        return sum(it.stat().st_size for it in files if "tests" not in str(it.relative_to(folder)))

    def weigh(self):
        """For each crate about what its proof takes."""
        read = {it: READING * self.size(it, "src", "specs", "proofs") for it in self.uses}
        own = {it: self.size(it, "src", "specs") for it in self.uses}
        return {it: own[it] + sum(read[lower] for lower in self.below[it]) for it in self.uses}

    def chain(self):
        """For each crate the weight of the heaviest chain that begins with it and goes up."""
        found = {}
        for name in reversed(self.uses):
            above = [found[it] for it in self.uses if name in self.uses[it]]
            found[name] = self.weights[name] + max(above, default=0)
        return found

    def done(self, name):
        self.left.remove(name)
        gone = (time.monotonic() - self.began) / 60
        tells = gone >= 1 and self.left
        times = f"; {gone:.0f} min gone, about {self.still(gone):.0f} left" if tells else ""
        say(f"{name} is proved, {len(self.uses) - len(self.left)} of {len(self.uses)}{times}")

    def still(self, gone):
        """Minutes: no less than the heaviest chain of crates takes, one after another."""
        rest = sum(self.weights[it] for it in self.left)
        chain = max(self.chains[it] for it in self.left)
        return gone * max(rest, chain * WITH_JOBS * self.jobs) / (self.all - rest)


def build_all(work, progress, at_once):
    """Builds what is left, so many crates side by side, and returns whether all could be built.
    What stands above one that couldn't isn't tried."""
    running = {}
    waiting = sorted(progress.left, key=lambda it: -progress.chains[it])
    with ThreadPoolExecutor(at_once) as pool:
        while True:
            ready = [it for it in waiting if all(low in work.stamps for low in work.uses[it])]
            jobs = 1 if len(ready) + len(running) >= at_once else min(at_once, MOST_JOBS)
            for name in ready[: at_once - len(running)]:
                waiting.remove(name)
                running[pool.submit(work.build, name, jobs)] = name
            if not running:
                return not progress.left
            for it in wait(running, return_when=FIRST_COMPLETED).done:
                name = running.pop(it)
                if it.result():
                    say(f"{name} was not proved in this pass")
                else:
                    progress.done(name)


def build_below_too(work, jobs):
    """Builds the crate and all below it, and returns whether that could be done."""
    PLACE.mkdir(parents=True, exist_ok=True)
    work.take_kept()
    progress = Progress(work, jobs)
    # (what failed as memory didn't suffice is tried once more with nothing beside it)
    return build_all(work, progress, jobs) or build_all(work, progress, 1)


def build_after_ci(work, jobs):
    """Builds the crate over what rt ci left below it, and returns whether that could be done."""
    *below, top = work.crates.values()
    lacking = [it.name for it in below if not os.path.isdir(it.rlib)]
    if lacking:
        say(f"rt ci has left no library of {', '.join(lacking)}")
    return not lacking and not work.build(top.name, min(jobs, MOST_JOBS))


def arguments():
    parser = argparse.ArgumentParser(usage=__doc__.split("\n\n")[1].strip())
    parser.add_argument("--after-ci", action="store_true")
    parser.add_argument("crate")
    parser.add_argument("jobs", type=int)
    parser.add_argument("log")
    return parser.parse_args()


def main(options):
    # (what the kit runs ends with this process, which would wait for it at Ctrl-C)
    signal.signal(signal.SIGINT, signal.SIG_DFL)
    with open(options.log, "ab") as file:
        work = Work(options.crate, file, None if options.after_ci else PLACE)
        work.kit.guarded()  # (before any thread runs)
        work.kit.lock(work.crates.values())  # (keeps every rt out of these crates, till this ends)
        build = build_after_ci if options.after_ci else build_below_too
        return 0 if build(work, options.jobs) else 1


if __name__ == "__main__":
    with ending.silent():
        sys.exit(main(arguments()))
