#!/usr/bin/env python3
"""Drives a session through a pipe so that a file which can't be written costs no map.

    examples/drive.py RES NAME FOLDER OTHER < SCRIPT

does the scans of a script one after another, prints the replies, and saves the map as NAME in
FOLDER. A session of which a save or a snapshot fails ends with status 8, and its map is gone: so
every tenth scan a snapshot is put beside, under two names by turns, and after that status another
session goes on in the folder OTHER, with the last snapshot and the scans behind it. The program is
what OCTOMAP names, or the launcher beside this folder. (In Python an octofix.Map needs none of
this: a save that fails is an OSError, and the map is as it was.)
"""
import os
import shutil
import subprocess
import sys

LAUNCHER = os.path.join(os.path.dirname(os.path.abspath(__file__)), "..", "octomap")
STORE_FAULT = 8
EVERY = 10


class Ended(Exception):
    """A session that ended before its reply, with a status."""


class Session:
    """A session in a folder."""

    def __init__(self, resolution, folder):
        call = [os.environ.get("OCTOMAP", LAUNCHER), "session", resolution]
        pipes = {"stdin": subprocess.PIPE, "stdout": subprocess.PIPE}
        self.program = subprocess.Popen(call, cwd=folder, text=True, **pipes)

    def do(self, command):
        """The reply to a command, or to the block of a scan."""
        try:
            self.program.stdin.write(command)
            self.program.stdin.flush()
        except BrokenPipeError:
            pass
        reply = self.program.stdout.readline()
        if not reply:
            raise Ended(self.program.wait())
        return reply


class Driver:
    """Does scans by sessions, of which the next one goes on where one can't write."""

    def __init__(self, resolution, folders):
        self.resolution, self.folders = resolution, iter(folders)
        # The last snapshot, how many there were, and the scans behind it.
        self.kept, self.count, self.behind = None, 0, []
        self.begin()

    def begin(self):
        self.folder = next(self.folders)
        self.session = Session(self.resolution, self.folder)
        if self.kept:
            shutil.copy(self.kept, os.path.join(self.folder, "kept"))
            self.session.do("restore kept\n")
        for scan in self.behind:
            self.session.do(scan)

    def do(self, command):
        while True:
            try:
                return self.session.do(command)
            except Ended as why:
                if why.args != (STORE_FAULT,):
                    raise
                self.begin()

    def scan(self, block):
        reply = self.do(block)
        self.behind.append(block)
        if len(self.behind) == EVERY:
            name = f"kept{self.count % 2}"
            self.do(f"snapshot {name}\n")
            self.kept, self.behind = os.path.join(self.folder, name), []
            self.count += 1
        return reply


def blocks_of(lines):
    """The blocks of the scans of a script."""
    block = []
    for line in lines:
        block.append(line)
        if line.split() == ["end"]:
            yield "".join(block)
            block = []


def main(resolution, name, *folders):
    driver = Driver(resolution, folders)
    for block in blocks_of(sys.stdin):
        print(driver.scan(block), end="")
    print(driver.do(f"save {name}\n"), end="")


if __name__ == "__main__":
    if len(sys.argv) < 4:
        sys.exit(__doc__.strip())
    try:
        main(*sys.argv[1:])
    except StopIteration:
        sys.exit("drive.py: no folder takes the file")
    except Ended as why:
        sys.exit(f"drive.py: the session ended with status {why}")
