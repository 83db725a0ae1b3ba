#!/usr/bin/env python3
"""Has the OctoMap library read the files of this program, and the program those of the library, and
counts what the library's insertion of five scans of 500 points takes.

    tests/library.py [--program FILE] [WORD ..]

The words are a command in place of the program, as 'python3 tests/model'. Needs the library with
its tools and headers, and g++ and valgrind (on Debian and Ubuntu: octomap-tools, liboctomap-dev,
g++, valgrind). Fails where a file is read as another map than it is. It says how many voxels the
two know otherwise where both insert the same scans; that is no fault, since the library steps along
a beam in floating point.
"""
import os
import re
import subprocess
import sys
import tempfile
from pathlib import Path

HERE = Path(__file__).resolve().parent
sys.path.append(str(HERE.parent / "tools/check"))
import options  # noqa: E402


def command():
    """The command whose files are compared."""
    parser = options.parser(__doc__)
    parser.add_argument("words", nargs="*")
    given = parser.parse_args()
    found = [str(Path(it).resolve()) if Path(it).exists() else it for it in given.words]
    return found or [options.program_of(given)]


PROGRAM = command()
HEAD = b"# Octomap OcTree binary file\nid OcTree\nsize %d\nres 0.1\ndata\n"
failed = 0


def octomap(words, data=b"", folder=None):
    """What the program writes."""
    done = subprocess.run([*PROGRAM, *words.split()], input=data, stdout=subprocess.PIPE,
                          cwd=folder, check=True)
    return done.stdout


def tool(folder, *words):
    """Runs a program of the library, which says much; whether it ended well."""
    done = subprocess.run(words, cwd=folder, stdout=subprocess.DEVNULL, stderr=subprocess.DEVNULL)
    return done.returncode == 0


def say(what, holds):
    global failed
    failed += not holds
    print(f"{'stands' if holds else 'FAILS '}  {what}", flush=True)


def scans(seed, number, points):
    made = HERE.parent / "bench/make_scans.py"
    words = [sys.executable, made, str(seed), str(number), str(points)]
    return subprocess.run(words, stdout=subprocess.PIPE, check=True).stdout


def occupied(scene):
    """The volume of the boxes of a scene, in cubes of a tenth of a metre."""
    sizes = re.findall(rb"size ([0-9.e+-]+) ", scene)
    return sum(round(float(it) * 10) ** 3 for it in sizes)


def pass_through(name, file, folder):
    """A file, canonical and at 0.1 m, is read and written again by the library's tools."""
    (folder / "a.bt").write_bytes(file)
    went = tool(folder, "convert_octree", "a.bt", "a.ot") and \
        tool(folder, "convert_octree", "a.ot", "b.bt") and tool(folder, "bt2vrml", "a.bt")
    say(f"{name}: convert_octree and bt2vrml read the file", went)
    if went:
        theirs = (folder / "b.bt").read_bytes()
        say("  the map that convert_octree writes is the same", octomap("convert", theirs) == file)
        count = int(re.search(rb"occupied (\d+)", octomap("inspect", file)).group(1))
        boxes = occupied((folder / "a.bt.wrl").read_bytes())
        say(f"  the boxes of bt2vrml are its {count} occupied voxels", boxes == count)


def run_library(folder, script, *words):
    """What the library's insertion writes, and its peak memory in megabytes."""
    (folder / "script").write_bytes(script)
    with open(folder / "script", "rb") as data:
        ran = subprocess.Popen([folder / "insert", *words], stdin=data, stdout=subprocess.PIPE,
                               stderr=subprocess.DEVNULL)
        text = ran.stdout.read()
    return text, os.wait4(ran.pid, 0)[2].ru_maxrss / 1024


def instructions(folder, script, *words):
    call = ["valgrind", "--tool=callgrind", "--callgrind-out-file=/dev/null", folder / "insert"]
    done = subprocess.run([*call, *words], input=script, stdout=subprocess.DEVNULL,
                          stderr=subprocess.PIPE, check=True)
    return int(re.search(rb"Collected : (\d+)", done.stderr).group(1))


def insert(folder):
    """The library's own map of five scans, beside that of the program."""
    build = ["g++", "-O2", "-o", folder / "insert", HERE / "library_insert.cpp", "-loctomap"]
    subprocess.run([*build, "-loctomath"], check=True)
    script = scans(1, 5, 500)
    theirs, peak = run_library(folder, script, "0.05")
    say("a map of the library's own: the file is canonical", octomap("convert", theirs) == theirs)
    (folder / "theirs.bt").write_bytes(theirs)
    (folder / "ours.bt").write_bytes(octomap("build 0.05", script))
    table = octomap("table ours.bt theirs.bt -50 -50 -50 50 50 50", folder=folder).decode()
    for line in table.splitlines():
        ours, found, count = line.split()
        print(f"        {ours} here, {found} there: {count}")
    whole, reading = (instructions(folder, script, "0.05", *it) for it in ((), ("dry",)))
    millions = [round(it / 10**6) for it in (whole - reading, reading)]
    print("the library's insertion: {} million instructions,".format(millions[0]),
          f"beside {millions[1]} million for reading and starting; peak memory {peak:.0f} MB")


def main():
    with tempfile.TemporaryDirectory() as room:
        folder = Path(room)
        insert(folder)
        pass_through("three scans", octomap("build 0.1", scans(3, 3, 60)), folder)
        cube = b"box 0 0 0 3.1 3.1 3.1 hit\nbox 0 0 0 1.5 1.5 1.5 set -400\nmiss -1 -1 -1\n"
        pass_through("large leaves", octomap("build 0.1", cube), folder)
        pass_through("a map all occupied", octomap("convert", HEAD % 9 + b"\xaa\xaa"), folder)
        # (a map without a known voxel has no data, and convert_octree takes that for no file)
        (folder / "none.bt").write_bytes(octomap("build 0.1"))
        went = tool(folder, "bt2vrml", "none.bt")
        say("a map without a known voxel: bt2vrml reads the file, and shows no box",
            went and occupied((folder / "none.bt.wrl").read_bytes()) == 0)
    sys.exit(1 if failed else 0)


main()
