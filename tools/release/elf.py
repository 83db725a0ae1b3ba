"""What a built file needs and says of itself, as readelf has it."""

import re
import subprocess
from pathlib import Path

# The kit's mark of a proof, in the section .comment.
LOGIC = re.compile(rb"rattle logic=([0-9a-f]{64})\0")


def logic_of(content):
    """The number of the logic by which a file is proved, or None."""
    found = LOGIC.search(content)
    return found and found[1].decode()


class Elf:
    """A program or a shared library."""

    def __init__(self, file):
        self.name = Path(file).name
        words = ["readelf", "--wide", "--dynamic", "--dyn-syms", file]
        self.said = subprocess.run(words, check=True, capture_output=True, text=True).stdout

    def needed(self):
        """The names of the libraries that it needs."""
        return re.findall(r"\(NEEDED\).*\[(.*)\]", self.said)

    def exports(self):
        """The functions that others may call."""
        return sorted(re.findall(r" FUNC +GLOBAL +DEFAULT +\d+ (\w+)$", self.said, re.M))

    def glibc(self):
        """The oldest glibc whose symbols suffice, as (2, 14)."""
        return max((int(it[0]), int(it[1])) for it in re.findall(r"@GLIBC_(\d+)\.(\d+)", self.said))
