#!/usr/bin/env python3
"""Writes the examples in C and C++ of README.md and docs/LIBRARY.md to a folder, for the checks.

    doc_examples.py FOLDER

An example is a block of indented lines that begins with an #include of one of the headers.
It is written as FOLDER/example_N.c or .cpp.
"""
import re
import sys
import textwrap
from pathlib import Path

ROOT = Path(__file__).resolve().parent.parent
INCLUDE = r"^    #include <octofix(?:_octree|_mapper)?\.h(?:pp)?>.*\n"
BLOCK = re.compile(INCLUDE + r"(?:    .*\n|\n(?=    ))*", re.M)


def main():
    folder = Path(sys.argv[1])
    texts = [(ROOT / name).read_text() for name in ("README.md", "docs/LIBRARY.md")]
    blocks = [block for text in texts for block in BLOCK.findall(text)]
    for number, block in enumerate(blocks):
        kind = "cpp" if ".hpp>" in block else "c"
        (folder / f"example_{number}.{kind}").write_text(textwrap.dedent(block))


if __name__ == "__main__":
    main()
