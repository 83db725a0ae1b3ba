"""A second program: it answers by the words of docs/FORMATS.md alone, and shares nothing with the
first one.

    python3 tests/model session 0.1 [options] < SCRIPT        (and the other tasks)

It keeps a number for each known voxel in a dictionary, and exact fractions for each beam. There is
no tree here, and no walk from crossing to crossing. It is slow, and knows no large blocks: a box
that isn't refused, or a leaf of a file that is loaded, has to be small. Files are those of the
current folder.
"""
import os
import sys

sys.dont_write_bytecode = True
sys.path.insert(0, os.path.dirname(os.path.abspath(__file__)))

import tasks  # noqa: E402


class Folder(dict):
    """The files of the current folder: read when asked for, and written when set."""

    def __missing__(self, name):
        with open(name, "rb") as file:
            return file.read()

    def __contains__(self, name):
        return os.path.exists(name)

    def __setitem__(self, name, data):
        with open(name, "wb") as file:
            file.write(data)


def main():
    words = sys.argv[1:]
    data = b"" if words[:1] in (["gen"], ["drill"]) else sys.stdin.buffer.read()
    status, text = tasks.run(words, data, Folder())
    sys.stdout.buffer.write(text)
    return status


if __name__ == "__main__":
    sys.exit(main())
