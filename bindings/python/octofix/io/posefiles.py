"""Lists of poses in files of text."""

import math
import re
from dataclasses import dataclass

import numpy as np

from octofix import _turns

from .errors import Unusable, on_line
from .kinds import tell_cut, text_of
from .poses import Pose, is_number, numbers_of, refuse_commas
from .stamps import NANOSECONDS, seconds

# Forms, and how many numbers a pose has: 'time x y z qx qy qz qw' of the TUM benchmarks, a 3 x 4
# matrix of KITTI, 'time x y z qw qx qy qz ..' of EuRoC, whose ground truth has 17 columns, a
# 4 x 4 matrix, in one line or in four, and places with the four numbers of a quaternion.
FORMS = {"tum": 8, "kitti": 12, "euroc": 8, "matrix": 16, "xyzw": 7, "wxyz": 7}
EUROC_COLUMNS = 17
SIDE = 4
# The least numbers of which a heading may tell the order.
NAMED = 7


class Unclear(Unusable):
    """What a file doesn't say, so that none of its poses can be used."""


@dataclass(frozen=True)
class PoseList:
    """The form of a file, and of each pose its time, or None, and itself, or None where it can't be
    used."""

    form: str
    timed: list


@dataclass(frozen=True)
class _Row:
    """A line with a pose: its number, text and words; or several, of which the first has it."""

    line: int
    text: str
    words: list
    parts: tuple = ()

    def numbers(self):
        if not self.parts:
            return numbers_of(self.words, self.text)
        found = []
        for it in self.parts:
            with on_line(it.line):
                found += it.numbers()
        return found


def read_poses(name, skips, form=None):
    """The PoseList of a file, in a form of FORMS, or in the one that it shows. What can't be used
    is passed over where `skips` lets it."""
    found, text = [], text_of(name)
    try:
        rows, headings = _rows_of(text)
    except Unusable as why:
        raise why.named(name)
    if not rows:
        raise Unusable("it has no pose", name)
    is_block = form in (None, "matrix") and len(rows[0].words) == SIDE
    for row in _blocks_of(rows) if is_block else rows:
        try:
            form = form or _form_of(row, rows, headings)
            found.append(_pose_of(row, form))
        except Unusable as why:
            why.name, why.line = name, why.line or row.line
            if isinstance(why, Unclear):
                raise
            skips.judge(why)
            found.append((None, None))
    tell_cut(name, text)
    return PoseList(form, found)


def _rows_of(text):
    """The lines of poses, and those that stand before them."""
    rows, headings = [], []
    for line, row in enumerate(text.split("\n"), 1):
        words = row.replace(",", " ").split()
        if words and not words[0].startswith("#") and (rows or any(map(is_number, words))):
            with on_line(line):
                refuse_commas(row)
            rows.append(_Row(line, row, words))
        else:
            headings.append(row)
    return rows, headings


def _blocks_of(rows):
    """Each four lines as one, of a matrix."""
    for at in range(0, len(rows), SIDE):
        block = rows[at : at + SIDE]
        words = [word for it in block for word in it.words]
        yield _Row(block[0].line, block[0].text, words, tuple(block))


def _form_of(row, rows, headings):
    """The form of a pose, by how many numbers it has, a line that names them, and the others."""
    many = len(row.words)
    named = [it for it in headings if len(_names_of(it)) == many >= NAMED]
    if many == FORMS["kitti"] and not any(_turn_of(it) for it in named):
        return "kitti"
    if named:
        return _form_named(named[-1], many)
    if many == FORMS["matrix"]:
        return "matrix"
    if many == FORMS["tum"]:
        _expect_tum(row, rows)
        return "tum"
    if many == EUROC_COLUMNS and numbers_of(row.words[:1], row.text)[0] >= NANOSECONDS:
        return "euroc"
    if many == FORMS["xyzw"]:
        raise _unclear(row.text, "xyzw", "wxyz", "the place")
    said = "7 numbers, 8 (TUM), 12 (KITTI), 16 (a matrix) or 17 (EuRoC)"
    raise Unusable(f"a pose has {said}, and here are {many}")


def _form_named(heading, many):
    is_timed = many > FORMS["xyzw"]
    places = _names_of(heading)[is_timed : is_timed + 3]
    place, turn = "".join(it[-1] for it in places), _turn_of(heading, is_timed)
    if not is_timed and place == "xyz" and turn in FORMS:
        return turn
    if is_timed and (place, turn) == ("xyz", "wxyz"):
        return "euroc"
    if (place, turn, many) == ("xyz", "xyzw", FORMS["tum"]):
        return "tum"
    raise _unclear(heading) if is_timed else _unclear(heading, "xyzw", "wxyz", "the place")


def _turn_of(heading, is_timed=True):
    """The last letters of the names behind time and place that are of a quaternion."""
    first = 3 + is_timed
    return "".join(it[-1] for it in _names_of(heading)[first : first + 4] if it.startswith("q"))


def _unclear(text, last="tum", first="euroc", before="time and place"):
    said = f"whether qx qy qz qw (--pose-format {last}) or qw qx qy qz (--pose-format {first})"
    return Unclear(f"{said} follow {before} isn't said: {text.strip()[:80]!r}")


def _names_of(heading):
    """The names in a line that may name columns, without units."""
    plain = re.sub(r"[\[(][^\[\]()]*[\])]", " ", heading).lower().lstrip("# ")
    return [it for it in re.split(r"[,\s]+", plain) if it]


def _expect_tum(row, rows):
    """Unusable where eight numbers without names may be others than those of TUM: where commas part
    them, the first ones don't rise, as times do, or a quaternion may stand otherwise."""
    if "," in row.text:
        raise _unclear(row.text)
    alike = np.array([it.numbers() for it in rows if _has_numbers(it, FORMS["tum"])])
    if len(alike) and _are_unit(alike[:, 3:7]).all() and _are_times(alike[:, -1]):
        said = "whether the time stands first (--pose-format tum) or last isn't said"
        raise Unclear(f"{said}: {row.text.strip()[:80]!r}")
    alike = alike[_are_unit(alike[:, 4:])] if len(alike) else alike
    if not len(alike):
        return
    if not _rise(alike[:, 0]):
        raise Unclear("its first numbers don't rise, as times do (--pose-format tum: they are)")
    # (a turn by little has a large w, whatever its axis; one that is level has small x and y)
    a, b, c, d = np.square(alike[:, 4:]).sum(axis=0)
    if d < 2 * a and b + c < 10 * (a + b):
        raise _unclear(row.text)


def _has_numbers(row, many):
    is_plain = len(row.words) == many and all(map(is_number, row.words))
    return is_plain and all(map(math.isfinite, row.numbers()))


def _rise(times):
    return bool((np.diff(list(map(seconds, times))) >= 0).all())


def _are_times(numbers):
    return _rise(numbers) and (len(numbers) == 1 or numbers[0] < numbers[-1])


def _are_unit(quaternions):
    with np.errstate(over="ignore"):
        return np.abs(np.linalg.norm(quaternions, axis=1) - 1) <= _turns.ROUNDING


def _pose_of(row, form):
    """The time, or None, and the pose of a line."""
    numbers, wanted = row.numbers(), FORMS[form]
    if len(numbers) < wanted or (len(numbers) > wanted and form != "euroc"):
        raise Unusable(f"a pose has {wanted} numbers here ({form}), and not {len(numbers)}")
    if form in ("kitti", "matrix"):
        return None, Pose.of_rows(numbers)
    if form in ("xyzw", "wxyz"):
        return None, _pose_of_turn(numbers, form)
    if not math.isfinite(numbers[0]):
        raise Unusable("the time isn't finite")
    turn = "wxyz" if form == "euroc" else "xyzw"
    return seconds(numbers[0]), _pose_of_turn(numbers[1 : FORMS[form]], turn)


def _pose_of_turn(numbers, turn):
    place, four = numbers[:3], numbers[3:]
    return Pose.read(place, four if turn == "wxyz" else (four[3], *four[:3]))
