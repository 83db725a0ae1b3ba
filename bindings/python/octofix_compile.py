#!/usr/bin/env python3
"""Compiles the module octofix._native, for each Python from 3.9 on, of the sources in native/.

    bindings/python/octofix_compile.py [--pinned | --sanitized] [FILE]

Without a FILE it is put into the package here, where it isn't made of these sources already. Needs
a C compiler, which CC may name, and Python.h; what lacks is told in one line, with status 1. With
--pinned it has to be the compiler and the headers with which a release is made, since others make
other bytes. With --sanitized it looks at addresses and at undefined behaviour while it runs.
"""

import argparse
import hashlib
import os
import re
import shlex
import shutil
import subprocess
import sys
import sysconfig
import tempfile
from pathlib import Path

HERE = Path(__file__).resolve().parent
SOURCES = HERE / "native"
NAME = "_native.abi3.so"
# Python.h of these is the same wherever Debian 12 is.
PINNED_COMPILER, PINNED_HEADERS = "12.2.0", "3.11.2"
SYSTEM_PYTHON = "/usr/bin/python3"
# A product must not be fused with a sum, since that makes other nanometres.
FLAGS = (
    "-std=gnu11 -O3 -fPIC -fvisibility=hidden -ffp-contract=off -fno-math-errno -fno-plt -g0 "
    "-Wall -Wextra -Wno-missing-field-initializers -Wno-cast-function-type"
).split()
LINK_FLAGS = "-shared -Wl,-s -Wl,-z,relro -Wl,-z,now -Wl,--build-id=none".split()
SANITIZERS = "-fsanitize=address,undefined -fno-sanitize-recover=all".split()


class Unfit(Exception):
    """Why there can be no module, in one line."""


def headers():
    """Those of other folders of a clone, which stand beside the sources in an sdist."""
    found = []
    for it in ("c/octofix.h", "cpp/octofix/cuts.h"):
        places = SOURCES / Path(it).name, HERE.parent / it
        found += [place for place in places if place.is_file()][:1]
        if not found or found[-1].name != Path(it).name:
            raise Unfit(f"{Path(it).name} isn't here")
    return found


def sources():
    """All files of which the module is made."""
    return [*sorted(SOURCES.glob("*.c")), SOURCES / "native.h", *headers()]


def digest():
    """A number of all that they say, which the module keeps."""
    found = hashlib.sha256()
    for it in [*sources(), Path(__file__)]:
        found.update(it.name.encode() + b"\0" + it.read_bytes())
    return found.hexdigest()[:16]


def version():
    text = (HERE / "pyproject.toml").read_text("utf-8")
    return re.search(r'^version = "(.*)"$', text, re.M)[1]


def compiler(is_pinned=False):
    """The words that call the compiler."""
    named = ["gcc"] if is_pinned else shlex.split(os.environ.get("CC", "")) or ["cc"]
    if not shutil.which(named[0]):
        raise Unfit(f"no C compiler is here (the command {named[0]}; in Debian gcc)")
    return named


def include(is_pinned=False):
    """The folder of Python.h: that of this Python, or of the system's, as it is pinned."""
    places = [] if is_pinned else [sysconfig.get_path("include")]
    if os.access(SYSTEM_PYTHON, os.X_OK):
        ask = "import sysconfig; print(sysconfig.get_path('include'))"
        done = subprocess.run([SYSTEM_PYTHON, "-c", ask], capture_output=True, text=True)
        places.append(done.stdout.strip())
    found = next((it for it in places if it and Path(it, "Python.h").is_file()), None)
    if found is None:
        raise Unfit("no Python.h is here (in Debian python3-dev)")
    return found


def version_of_headers(folder):
    text = Path(folder, "patchlevel.h").read_text("utf-8")
    return re.search(r'PY_VERSION\s+"(.*)"', text)[1]


def tools(is_pinned=False):
    """The compiler and the headers, as a text; where they are pinned they have to be these."""
    words, folder = compiler(is_pinned), include(is_pinned)
    said = subprocess.run([*words, "-dumpfullversion"], capture_output=True, text=True)
    found = said.stdout.strip(), version_of_headers(folder)
    if is_pinned and found != (PINNED_COMPILER, PINNED_HEADERS):
        raise Unfit(
            f"a release needs gcc {PINNED_COMPILER} and the headers of Python {PINNED_HEADERS}, as "
            f"Debian 12 has them, and here are {found[0] or 'none'} and {found[1]}"
        )
    return f"{words[0]} {found[0]} and the headers of Python {found[1]}"


def compile_to(target, is_pinned=False, sanitized=False):
    """Writes the module to a file, at once and whole."""
    tools(is_pinned)
    words, folder = compiler(is_pinned), include(is_pinned)
    target = Path(target)
    with tempfile.TemporaryDirectory() as room:
        made = Path(room, NAME)
        flags = [*FLAGS, *(SANITIZERS if sanitized else ())]
        told = [f'-DNATIVE_VERSION="{version()}"', f'-DNATIVE_SOURCES="{digest()}"']
        folders = [f"-I{it}" for it in (folder, *(it.parent for it in headers()))]
        files = [str(it) for it in sources() if it.suffix == ".c"]
        done = subprocess.run(
            [*words, *flags, *told, *folders, "-o", str(made), *files, *LINK_FLAGS],
            capture_output=True, text=True, env={**os.environ, "LC_ALL": "C"},
        )  # fmt: skip
        if done.returncode:
            lines = (done.stderr or "without a word").splitlines()
            why = next((it for it in lines if "error" in it), lines[0])
            raise Unfit(f"{words[0]} can't compile octofix._native: {why}")
        put(made, target)


def put(made, target):
    """Puts a file in its place, whole, whoever else does so."""
    beside = target.with_name(f".{target.name}.{os.getpid()}")
    shutil.copyfile(made, beside)
    beside.chmod(0o644)
    os.replace(beside, target)


def is_made(target):
    """Whether it is made of these sources."""
    return target.is_file() and digest().encode() in target.read_bytes()


def make_in_place():
    """Puts the module into the package here, where it isn't made of these sources already."""
    target = HERE / "octofix" / NAME
    if not is_made(target):
        compile_to(target)


def main():
    parser = argparse.ArgumentParser(usage=__doc__.split("\n\n")[1].strip())
    parser.add_argument("--pinned", action="store_true")
    parser.add_argument("--sanitized", action="store_true")
    parser.add_argument("file", nargs="?", type=Path)
    options = parser.parse_args()
    try:
        if options.file:
            compile_to(options.file, options.pinned, options.sanitized)
        else:
            make_in_place()
    except Unfit as why:
        sys.exit(f"octofix: {why}")
    except OSError as why:
        sys.exit(f"octofix: {why.filename}: {why.strerror}")


if __name__ == "__main__":
    main()
