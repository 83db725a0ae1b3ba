"""The script of commands that makes a map of scans, for a session or a build of octomap."""

from octofix.io.lengths import NANO, metres, nanometres
from octofix.mapping.editing import corners
from octofix.mapping.leaves import OCCUPIED, VOXELS

# Below this a float of metres tells the nanometre.
EXACT = 1 << 51


def _length(meters):
    """The text of a float of whole nanometres."""
    return f"{meters:.9f}".rstrip("0").rstrip(".")


def _lengths(points):
    """The texts of rows of whole nanometres."""
    if len(points) and abs(points).max() >= EXACT:
        return (" ".join(map(metres, it)) for it in points.tolist())
    return (" ".join(map(_length, it)) for it in (points / NANO).tolist())


class Script:
    """Writes lines to a binary file. `size` is how many bytes what is whole has there."""

    def __init__(self, file):
        self.file = file
        self.size = self._written = 0

    def _write(self, lines):
        content = "".join(f"{it}\n" for it in lines).encode()
        self.file.write(content)
        self._written += len(content)

    def copy_to(self, file):
        """Writes what is whole to another file."""
        self.file.copy_to(file, self.size)

    def limit(self, low, high):
        """The box of a limit, from one point in metres to another."""
        corners = [metres(it) for point in (low, high) for it in nanometres(point)]
        self._write([f"limit {' '.join(corners)}"])
        self.size = self._written

    def scan(self, scan, reach):
        """A scan as the map did it: its points are turned already, so the quaternion turns no
        more."""
        origin = " ".join(map(metres, scan.origin))
        cut = "all" if reach is None else metres(nanometres(reach))
        self._write([f"scan {origin} 1 0 0 0 {cut}"])
        self._write(f"p {it}" for it in _lengths(scan.points))
        self._write(["end"])
        self.size = self._written

    def edits(self, leaves):
        """A hit for each occupied voxel and a miss for each free one, blocks as boxes."""
        lows, highs = map(_lengths, corners(leaves))
        rows = zip(leaves.depths.tolist(), leaves.classes.tolist(), lows, highs)
        self._write(
            f"{_word(one)} {low}" if depth == VOXELS else f"box {low} {high} {_word(one)}"
            for depth, one, low, high in rows
        )
        self.size = self._written


def _word(one):
    return "hit" if one == OCCUPIED else "miss"
