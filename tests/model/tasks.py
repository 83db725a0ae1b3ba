"""The tasks of the program: what each writes, and its status."""
import bt_file
import frontiers
import grids
import pairs
import texts
from session import session
from texts import LONG_DIGITS, Refused, metres_text, within
from world import FREE, Limits, OCCUPIED, Odds

USAGE = 2
MASK = 2**64 - 1

odds_number = within(texts.SIGNED, -9_999_999, 9_999_999)
script_bytes = within(LONG_DIGITS, 0, 2**40)
OPTIONS = {
    **{f"--{name}": odds_number for name in Odds._fields},
    "--max-groups": within(LONG_DIGITS, 16, 2**26),
    "--max-cells": within(LONG_DIGITS, 1, 2**27),
    "--max-bytes": script_bytes,
}
FILE_BYTES = within(LONG_DIGITS, 0, 2**32)


class Usage(Exception):
    """Words that are no task."""


def required(found):
    if found is None:
        raise Usage
    return found


def options(words, known):
    """Pairs of an option and its value, each option at most once."""
    if len(words) % 2 or len(set(words[::2])) < len(words) // 2:
        raise Usage
    found = {}
    for name, value in zip(words[::2], words[1::2]):
        found[name.removeprefix("--")] = required(required(known.get(name))(value.encode()))
    return found


def set_up(words):
    """The edge, the log-odds, the limits and the most bytes of a session."""
    edge = texts.metres(words[0].encode()) if words else None
    if edge is None or not 10**5 <= edge <= 10**11:
        raise Usage
    found = options(words[1:], OPTIONS)
    odds = Odds(**{name: found[name] for name in Odds._fields if name in found})
    if odds.fault() is not None:
        raise Usage
    limits = Limits(found.get("max-groups", 2**24), found.get("max-cells", 2**26))
    return edge, odds, limits, found.get("max-bytes", 2**40)


def run_session(words, data, files):
    edge, odds, limits, most = set_up(words)
    _, status, text = session(data, edge, files, odds, limits, most)
    return status, text


def run_build(words, data, files):
    edge, odds, limits, most = set_up(words)
    done, status, _ = session(data, edge, files, odds, limits, most)
    return status, b"" if status == 4 else bt_file.of_classes(edge, done.world.classes())


def read_file(words, data, write):
    """What `write` makes of the file, or its refusal."""
    if len(data) > options(words, {"--max-bytes": FILE_BYTES}).get("max-bytes", 2**26):
        return 4, b""
    try:
        file = bt_file.read(data)
    except Refused as refusal:
        return 3, f"refused {refusal}\n".encode()
    try:
        return 0, write(*file)
    except Refused as refusal:
        return 1, f"refused {refusal}\n".encode()


def canonical(root):
    return None if root is None else bt_file.root_of(bt_file.merged(root))


def run_convert(words, data, _):
    return read_file(words, data, lambda edge, root, _: bt_file.text(edge, canonical(root)))


def inspected(edge, root, size):
    """The six lines of a file."""
    free, occupied = (0 if root is None else bt_file.volume(root, it) for it in (FREE, OCCUPIED))
    is_canonical = "yes" if root == canonical(root) else "no"
    count = 0 if root is None else bt_file.records(root)
    sizes = f"res {metres_text(edge)}\nsize {size}\nrecords {count}\n"
    voxels = f"free {free}\noccupied {occupied}\n"
    return f"{sizes}{voxels}canonical {is_canonical}\n".encode()


def run_inspect(words, data, _):
    return read_file(words, data, inspected)


def run_frontier(words, data, _):
    points = required(grids.points(words[:6]))
    return read_file(words[6:], data, lambda edge, root, _: frontiers.listed(edge, root, points))


def run_project(words, data, _):
    points = required(grids.points(words[:6]))
    return read_file(words[6:], data, lambda edge, root, _: grids.picture(edge, root, points))


def run_vrml(words, data, _):
    return read_file(words, data, lambda edge, root, _: grids.scene(edge, root))


def pair_task(names, files, write):
    """What `write` makes of two files, or their refusal."""
    try:
        asked = [required(texts.name(it.encode())) for it in names]
        return 0, write(*pairs.load_both(files, asked))
    except Refused as refusal:
        return 1, f"{refusal}\n".encode()


def run_merge(words, _, files):
    rule, *names = words
    if rule not in pairs.RULES or len(names) != 2:
        raise Usage
    return pair_task(names, files, lambda edge, first, second: bt_file.text(
        edge, bt_file.root_of(bt_file.merged(pairs.merge(rule, first, second)))))


def run_table(words, _, files):
    if len(words) != 8:
        raise Usage
    spelled = [required(texts.metres(it.encode())) for it in words[2:]]
    points = spelled[:3], spelled[3:]
    return pair_task(words[:2], files, lambda *maps: pairs.table(*maps, points))


class Draws:
    """Numbers drawn from a seed, one after another."""

    def __init__(self, seed):
        self.state = seed

    def below(self, most):
        self.state = self.state * 6364136223846793005 + 1442695040888963407 & MASK
        return (self.state >> 33) % most

    def point(self, most):
        """Three lengths in millimetres, each at most this many from 0."""
        return " ".join(metres_text(self.below(2 * most + 1) - most, 3) for _ in range(3))


def load(words):
    """A seed, and how many scans of how many points."""
    if len(words) != 3:
        raise Usage
    kinds = [within(LONG_DIGITS, 0, most) for most in (10**18, 1000, 100_000)]
    return [required(kind(word.encode())) for kind, word in zip(kinds, words)]


def generated(seed, scans, points):
    draws = Draws(seed)
    yield f"# octomap gen {seed} {scans} {points}"
    for _ in range(scans):
        place = draws.point(2000)
        yield f"scan {place} 1 0 0 {draws.below(5) - 2} 8"
        for _ in range(points):
            yield f"p {draws.point(5000)}"
        yield "end"
    yield "quit"


def script_of(words):
    return "".join(f"{line}\n" for line in generated(*load(words))).encode()


def run_gen(words, _, __):
    return 0, script_of(words)


def run_drill(words, _, __):
    edge, odds, limits, most = set_up(["0.05"])
    done, status, _ = session(script_of(words), edge, {}, odds, limits, most)
    counts = [it.split() for it in done.text if it.startswith("ok")]
    refused = len(done.text) - len(counts)
    hits, frees = (sum(int(it[index]) for it in counts) for index in (2, 4))
    size = len(bt_file.of_classes(edge, done.world.classes()))
    lines = f"scans {len(done.text)} refused {refused}\nhits {hits} frees {frees}\n"
    return status, f"{lines}{done.world.counts()}\nbt {size}\n".encode()


TASKS = {
    "session": run_session,
    "build": run_build,
    "convert": run_convert,
    "inspect": run_inspect,
    "frontier": run_frontier,
    "project": run_project,
    "vrml": run_vrml,
    "merge": run_merge,
    "table": run_table,
    "gen": run_gen,
    "drill": run_drill,
}


def run(words, data, files):
    """The status and the text of a run over these files, which it changes."""
    try:
        return TASKS[words[0]](words[1:], data, files)
    except (Usage, IndexError, KeyError):
        return USAGE, b""
