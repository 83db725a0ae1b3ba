#!/usr/bin/env python3
"""Makes a release of what is built: a tarball, a wheel, Debian packages, an npm package and a page,
with PROVENANCE.txt and SHA256SUMS.

    tools/release/make.py [--unproved] [--dirty] FOLDER [PROGRAM ARCHIVE VERSION]

FOLDER is a new or an empty one. PROGRAM and ARCHIVE are what the kit built, ARCHIVE with
octofix.wasm beside it, and VERSION what the
installed command answers to --version; without them nothing is made, and it is said whether a
release could be. All bytes depend on the commit and on those two files, and on neither folder,
user, umask nor hour; SOURCE_DATE_EPOCH is taken in place of the commit's time. What isn't proved,
or has changes that no commit has, is refused but with these options, and says so in its version.
"""

import argparse
import contextlib
import hashlib
import os
import shutil
import signal
import sys
import tempfile
from pathlib import Path

# The status of the launcher where something can't be made.
FAILED = 9
if sys.version_info < (3, 11):
    print("octomap: a release needs Python 3.11 or newer", file=sys.stderr)
    sys.exit(FAILED)
ROOT = Path(__file__).resolve().parents[2]
sys.dont_write_bytecode = True  # (the clone stays as it is)
sys.path.insert(0, str(ROOT / "bindings/python"))

import debian  # noqa: E402
import octofix_compile  # noqa: E402
import tarball  # noqa: E402
import web  # noqa: E402
import wheel  # noqa: E402
from release import Release, Sources, Unfit, check_folder, check_tools, run  # noqa: E402


def install(prefix, program, archive, version, layout, module):
    words = [ROOT / "tools/install/install.sh", "proved", prefix, program, archive, version]
    run(*words, layout, module)


def make(sources, options, room):
    """Makes the release's files in the folder `made` of a room, and answers their names."""
    prefix, layout, made = room / "prefix", room / "layout", room / "made"
    module = room / octofix_compile.NAME
    built = options.program, options.archive, options.version
    octofix_compile.compile_to(module, is_pinned=not options.unproved)
    install(prefix, *built, "prefix", module)
    install(layout / "usr", *built, "debian", module)
    made.mkdir()
    release = Release(sources, options.program, module, prefix, options.unproved)
    try:
        names = [tarball.make(release, prefix, made), wheel.make(release, prefix, made)]
        names += debian.make(release, layout, made) + web.make(release, prefix, made)
    except debian.Unplaced as name:
        raise Unfit(f"tools/release/debian.py says of no package that it has {name}") from None
    (made / "PROVENANCE.txt").write_text(release.provenance)
    names = sorted([*names, "PROVENANCE.txt"])
    sums = [f"{hashlib.sha256((made / it).read_bytes()).hexdigest()}  {it}\n" for it in names]
    (made / "SHA256SUMS").write_text("".join(sums))
    return [*names, "SHA256SUMS"]


def put(made, names, folder):
    """Copies these files to a folder, which is as it was before where one can't be."""
    new = [it for it in (folder, *folder.parents) if not it.is_dir()]
    try:
        folder.mkdir(parents=True, exist_ok=True)
        for it in names:
            shutil.copyfile(made / it, folder / it)
    except BaseException as why:
        for it in names:
            with contextlib.suppress(OSError):
                (folder / it).unlink()
        for it in new:
            with contextlib.suppress(OSError):
                it.rmdir()
        if isinstance(why, OSError):
            raise Unfit(f"can't write to the folder '{folder}': {why.strerror}") from None
        raise


def write(sources, options):
    folder = options.folder
    with tempfile.TemporaryDirectory(prefix="octomap-release-") as room:
        names = make(sources, options, Path(room))
        put(Path(room, "made"), names, folder)
    print(f"octomap: released in {folder}:")
    for it in names:
        print(f"  {(folder / it).stat().st_size:9,}  {it}")


def arguments():
    parser = argparse.ArgumentParser(usage=__doc__.split("\n\n")[1].strip())
    parser.add_argument("--unproved", action="store_true")
    parser.add_argument("--dirty", action="store_true")
    parser.add_argument("folder", type=Path)
    for it in ("program", "archive", "version"):
        parser.add_argument(it, nargs="?")
    return parser.parse_args()


def fail(why):
    print(f"octomap: {why}", file=sys.stderr)
    sys.exit(FAILED)


def main():
    # (what is half made goes where this is told to end)
    signal.signal(signal.SIGTERM, lambda *_: sys.exit(143))
    options = arguments()
    options.folder = Path(os.path.abspath(options.folder))
    try:
        check_tools(is_pinned=not options.unproved)
        check_folder(options.folder)
        sources = Sources(options.dirty)
        if options.version:
            write(sources, options)
    except Unfit as why:
        fail(why)
    except OSError as why:
        fail(f"{why.filename}: {why.strerror}" if why.filename else why)
    except KeyboardInterrupt:
        sys.exit(130)


if __name__ == "__main__":
    main()
