"""What all checks in Python take, and where it comes from: the options --program FILE, a built
octomap, and --library FOLDER, that of liboctofix.a and liboctofix.so.1. What isn't given is built
by tools/check/built."""
import argparse
import atexit
import subprocess
import tempfile
from pathlib import Path

BUILT = Path(__file__).resolve().parent / "built"


def existing(name):
    """The whole path of a file that is there."""
    if not Path(name).exists():
        raise argparse.ArgumentTypeError(f"there is no {name}")
    return str(Path(name).resolve())


def parser(text):
    """A parser of the options of all checks, to which a check adds its own."""
    it = argparse.ArgumentParser(description=text, formatter_class=argparse.RawTextHelpFormatter)
    it.add_argument("--program", type=existing, metavar="FILE", help="a built octomap")
    it.add_argument("--library", type=existing, metavar="FOLDER",
                    help="the folder of liboctofix.a and liboctofix.so.1")
    return it


def built(*words):
    done = subprocess.run([BUILT, *words], stdout=subprocess.PIPE, text=True, check=True)
    return done.stdout.strip()


def program_of(given):
    """The program that was given, or else one that is built."""
    return given.program or built("program")


def library_of(given):
    """The folder of the library that was given, or else a new one, until the process ends."""
    if given.library:
        return given.library
    room = tempfile.TemporaryDirectory()
    atexit.register(room.cleanup)
    return built("library", room.name)


def program(text):
    """The program for a check that takes no more; the text is what its --help says."""
    return program_of(parser(text).parse_args())
