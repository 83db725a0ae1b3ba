"""Maps of a few large blocks: what is told of them, and what casts, frontiers, pictures and tables
of two files make of them; and scans near voxel 0, one by one and by the definition."""
from itertools import product

from row import Built, Row, data, short_bt
from tables import data_of, table_of
from worked import CUBE, FREE_FILE, WHOLE

# The ends of the map, a nanometre below 0, and the corners of two of its eight blocks: of the
# lowest one, and of that beside it on x.
LOW, HIGH, BELOW = "-3276.8", "3276.799999999", "-0.000000001"
LOWEST, BESIDE = "-3276.8 -3276.8 -3276.8 -0.1 -0.1 -0.1", "0 -3276.8 -3276.8 3276.7 -0.1 -0.1"
CLEAR = "cast clear"

# Two of the map's eight blocks are known: one on the upper x and y, and one on the upper x and z.
HALVES = "box 0 0 -3276.8 3276.7 3276.7 -0.1 set 900 ; box 0 -3276.8 0 3276.7 -0.1 3276.7 set -400"
OCCUPIED, FREE, UNKNOWN = "known 900 occupied", "known -400 free", "unknown"
BLOCKS = [
    ("-3276.8 -3276.8 -3276.8 0", OCCUPIED), ("-3276.8 -3276.8 -3276.8 1", UNKNOWN),
    ("0 0 -3276.8 1", OCCUPIED), ("0 -3276.8 0 1", FREE), ("3264 -3276.8 3264 9", FREE),
    ("3276.7 0 -3276.8 16", OCCUPIED), ("-3276.8 -3276.8 3276.7 16", UNKNOWN),
]
QUERIES = [
    Row("A block of any depth answers for its voxels", "session 0.1",
        edits + "".join(f" ; get {block}" for block, _ in BLOCKS),
        " / ".join(["ok"] * (edits.count(" ; ") + 1) + answers))
    for edits, answers in [
        (HALVES, [answer for _, answer in BLOCKS]), ("clear", [UNKNOWN] * len(BLOCKS)),
        (f"box {WHOLE} set 850", ["known 850 occupied"] * len(BLOCKS)),
    ]
] + [
    Row("Two blocks of the map are one group and three nodes", "session 0.1", f"{HALVES} ; counts",
        "ok / ok / groups 1 nodes 3"),
    # (by its code the upper y comes before the upper z)
    Row("A list goes by x, then y, then z, and not by the blocks", "session 0.1",
        f"{HALVES} ; list -0.1 -0.1 -0.1 0 0 0 16 ; list 3276.7 723.2 -0.2 3276.7 723.2 0 16",
        "ok / ok / block 32768 32767 32768 -400 free / block 32768 32768 32767 900 occupied / "
        "end 2 / block 65535 40000 32766 900 occupied / block 65535 40000 32767 900 occupied / "
        "end 2"),
    Row("A list of a face of the map is too long", "session 0.1",
        "list -3276.8 -3276.8 -3276.8 -3276.8 3276.7 3276.7 16",
        "refused 9 TooManyBlocks count 4294967296"),
]


def casts(rule, edits, cases):
    """Rows of a map that these edits make: each segment, and its cast without and with `ignore`."""
    return [Row(rule, "session 0.1",
                f"{edits} ; cast {ends} ; cast {ends} ignore",
                "ok / " * (edits.count(" ; ") + 1) + f"{plain} / {ignoring}")
            for ends, plain, ignoring in cases]


def hit(*voxel):
    return "cast hit {} {} {}".format(*voxel)


def unknown(*voxel):
    return "cast unknown {} {} {}".format(*voxel)


# Of the occupied block the voxel that lies beside the free one.
INNER = hit(32768, 32767, 32767)
CASTS = casts(
    "A cast asks each voxel, of a block that is free and one at the threshold beside it",
    f"box {LOWEST} set -1 ; box {BESIDE} set 0", [
        (f"{BELOW} {BELOW} {BELOW} {BELOW} {BELOW} {BELOW}", CLEAR, CLEAR),
        (f"0 {BELOW} {BELOW} 0 {BELOW} {BELOW}", INNER, INNER),
        (f"0 0 {BELOW} 0 0 {BELOW}", unknown(32768, 32768, 32767), CLEAR),
        # The last voxel counts.
        (f"-0.25 {BELOW} {BELOW} 0 {BELOW} {BELOW}", INNER, INNER),
        (f"-0.25 {BELOW} {BELOW} {BELOW} {BELOW} {BELOW}", CLEAR, CLEAR),
        # Unknown voxels first, and occupied ones behind them.
        (f"0.05 0.15 {BELOW} 0.05 -0.15 {BELOW}", unknown(32768, 32769, 32767), INNER),
        # Through the corner of voxels exactly: to the voxel across, and none beside.
        (f"-0.1 -0.1 {BELOW} 0.1 0.1 {BELOW}", unknown(32768, 32768, 32767), CLEAR),
        # The corner lies in the voxel of the positive x and y, from which it goes on below.
        (f"-0.1 0.1 {BELOW} 0.1 -0.1 {BELOW}", unknown(32767, 32769, 32767), INNER),
        # Along whole axes of the map.
        (f"{LOW} {BELOW} {BELOW} {HIGH} {BELOW} {BELOW}", INNER, INNER),
        (f"{HIGH} {BELOW} {BELOW} {LOW} {BELOW} {BELOW}",
         hit(65535, 32767, 32767), hit(65535, 32767, 32767)),
        (f"{BELOW} {LOW} {BELOW} {BELOW} {HIGH} {BELOW}", unknown(32767, 32768, 32767), CLEAR),
        (f"{BELOW} {BELOW} {LOW} {BELOW} {BELOW} {HIGH}", unknown(32767, 32767, 32768), CLEAR),
        (f"0 {HIGH} {HIGH} 0 {HIGH} {LOW}", unknown(32768, 65535, 65535), CLEAR),
    ]) + casts(
    "A cast goes through the blocks of a block, past an occupied one of 16384 voxels on each axis",
    f"box {WHOLE} set -1 ; box -1638.4 -1638.4 -1638.4 -0.1 -0.1 -0.1 set 0", [
        (f"{start} {end}", answer, answer) for start, end, answer in [
            (f"{LOW} {BELOW} {BELOW}", f"{HIGH} {BELOW} {BELOW}", hit(16384, 32767, 32767)),
            (f"{HIGH} {BELOW} {BELOW}", f"{LOW} {BELOW} {BELOW}", hit(32767, 32767, 32767)),
            (f"{BELOW} {BELOW} {LOW}", f"{BELOW} {BELOW} {HIGH}", hit(32767, 32767, 16384)),
            (f"{LOW} {LOW} {BELOW}", f"{HIGH} {LOW} {BELOW}", CLEAR),
            (f"{LOW} {BELOW} 0", f"{HIGH} {BELOW} 0", CLEAR),
        ]
    ]) + [
    row for edits, plain, ignoring in [
        (f"box {WHOLE} set -400", CLEAR, CLEAR),
        (f"box {WHOLE} set 850", hit(0, 0, 0), hit(0, 0, 0)),
        ("clear", unknown(0, 0, 0), CLEAR),
    ] for row in casts("A cast goes from corner to corner of a map of one class", edits, [
        (f"{LOW} {LOW} {LOW} {HIGH} {HIGH} {HIGH}", plain, ignoring)])
]


def listed(*voxels):
    """What is said of a frontier of these voxels."""
    lines = ["frontier {} {} {}".format(*voxel) for voxel in voxels]
    return " / ".join([*lines, f"end {len(lines)}"])


FACES = [(32767, 32768, 32768), (32768, 32767, 32768), (32768, 32768, 32767),
         (32768, 32768, 32769), (32768, 32769, 32768), (32769, 32768, 32768)]
FACE_PLACES = ["-0.1 0 0", "0 -0.1 0", "0 0 -0.1", "0 0 0.1", "0 0.1 0", "0.1 0 0"]
ALL_BUT_ONE = Built(f"box {WHOLE} set -400 ; forget 0 0 0")
FRONTIERS = [
    Row(rule, f"frontier {box}", given, wanted) for rule, box, given, wanted in [
        ("The unknown world has no frontier", WHOLE, short_bt(0, ""), listed()),
        ("A single free voxel is the frontier of the map", WHOLE, FREE_FILE,
         listed((32768, 32768, 32768))),
        ("A frontier has no voxel outside its box", LOWEST, FREE_FILE, listed()),
        ("The frontier of a cube of 27 free voxels is that of the map", WHOLE, CUBE,
         listed(*((32768 + x, 32768 + y, 32768 + z) for x in range(3) for y in range(3)
                  for z in range(3) if (x, y, z) != (1, 1, 1)))),
        ("An occupied voxel isn't at the frontier, nor is a free one with occupied neighbours",
         WHOLE, Built("box -0.1 -0.1 -0.1 0.3 0.3 0.3 set 850 ; set 0.1 0.1 0.1 -400"), listed()),
        ("A map that is all free has no frontier", WHOLE, short_bt(9, "5555"), listed()),
        ("Around one unknown voxel six others are the frontier", WHOLE, ALL_BUT_ONE,
         listed(*FACES)),
        ("In the corners of the map three voxels are beside one", WHOLE,
         Built(f"box {WHOLE} set -400 ; forget {LOW} {LOW} {LOW} ; forget {HIGH} {HIGH} {HIGH}"),
         listed((0, 0, 1), (0, 1, 0), (1, 0, 0), (65534, 65535, 65535), (65535, 65534, 65535),
                (65535, 65535, 65534))),
    ]
] + [
    Row("Each of the six is the frontier of its own box", f"frontier {place} {place}", ALL_BUT_ONE,
        listed(voxel)) for place, voxel in zip(FACE_PLACES, FACES)
]

# The lowest of the map's eight blocks is free, and the one above it occupied.
STACK = short_bt(3, "0102")
PICTURES = [
    Row("A band of a column shows occupied before free before unknown, at the ends of blocks",
        f"project {place} {low} {place} {high}", STACK, b"P5\n1 1\n255\n" + data(cell))
    for place, low, high, cell in [
        (f"{LOW} {LOW}", LOW, "-0.1", "FE"),
        (f"{LOW} {LOW}", "-0.1", "0", "00"),
        ("-0.1 -0.1", LOW, "3276.7", "00"),
        ("-0.1 -0.1", "-0.1", "-0.1", "FE"),
        ("0 -0.1", LOW, "3276.7", "CD"),
        (f"{LOW} 3276.7", "-3276.1", "-3276.1", "CD"),
        ("-3276.3 -3275.9", "723.2", "723.2", "00"),
    ]
] + [
    Row("A grid shows a band for each column", f"project {box}", STACK,
        f"P5\n{size}\n255\n".encode() + data(cells)) for box, size, cells in [
        ("-0.1 -0.1 -3276.8 0 0 -0.1", "2 2", "CDCDFECD"),
        ("-0.1 -0.1 -0.1 0 -0.1 0", "2 1", "00CD"),
        ("-3276.3 -3275.9 -3276.1 -3276.3 -3275.7 -3276", "1 3", "FEFEFE"),
        ("3276.5 3276.7 -3276.8 3276.7 3276.7 3276.7", "3 1", "CDCDCD"),
    ]
] + [
    Row("A scene has no box where nothing is occupied", "vrml", short_bt(9, "5555"),
        "#VRML V2.0 utf8"),
    Row("A scene has the box of the occupied block alone", "vrml", STACK,
        "#VRML V2.0 utf8 / Transform { translation -1638.4 -1638.4 1638.4 children [ "
        "Shape { geometry Box { size 3276.8 3276.8 3276.8 } } ] }"),
]

# Files of two cubes of four voxels on each axis: an occupied one from the map's lowest voxel on,
# and a free one from the voxel that lies two further on each axis. They share a cube of two.
CUBES = {
    "A": short_bt(15, 13 * data_of(0, 3) + data_of(0, 2)),
    "B": short_bt(30, 13 * data_of(0, 3) + "FFFF" + "".join(data_of(7 - i, 1) for i in range(8))),
}
TABLES = [
    Row("A table counts the pairs of two cubes that overlap", f"table {names} {box}", "",
        table_of(*counts), files=CUBES) for names, box, counts in [
        ("A B", "-3276.8 -3276.8 -3276.8 -3276.1 -3276.1 -3276.1", (392, 56, 0, 0, 0, 0, 56, 8, 0)),
        ("A B", "-3276.7 -3276.7 -3276.7 -3276.3 -3276.3 -3276.3", (42, 56, 0, 0, 0, 0, 19, 8, 0)),
        ("A B", "-3276.6 -3276.6 -3276.6 -3276.6 -3276.6 -3276.6", (0, 0, 0, 0, 0, 0, 0, 1, 0)),
        ("A B", "-3275.9 -3275.9 -3275.9 -3275.9 -3275.9 -3275.9", (1, 0, 0, 0, 0, 0, 0, 0, 0)),
        ("A B", WHOLE, (2 ** 48 - 120, 56, 0, 0, 0, 0, 56, 8, 0)),
        # With the files exchanged, so are the classes.
        ("B A", "-3276.7 -3276.7 -3276.7 -3276.3 -3276.3 -3276.3", (42, 0, 19, 56, 0, 8, 0, 0, 0)),
    ]
]

# Ranges and ends of beams on x from the middle of voxel 0, the box of the scan if it has one, the
# voxels on x that it hits and frees, counted from that one, and the groups that it needs.
ONE, BOTH = ["0.4"], ["0.2", "0.4"]
SCANS = [
    # A beam as long as the range isn't cut, and hits the voxel in which another one is.
    ("0.5", ["1", "0.5"], None, [5], [0, 1, 2, 3, 4], 19),
    # No voxel comes twice, and they are on both sides.
    ("all", ["-0.3", "0.1", "-0.3", "0.1"], None, [-3, 1], [-2, -1, 0], 32),
    ("all", ["0"], None, [0], [], 16),
    ("all", [], None, [], [], 0),
    # All voxels of the beams and the one beside their ends.
    ("all", BOTH, (0, 5), [2, 4], [0, 1, 3], 19),
    # One voxel that is hit, and one that is freed.
    ("all", BOTH, (2, 2), [2], [], 16),
    ("all", BOTH, (3, 3), [], [3], 16),
    # The beam passes through, or passes by.
    ("all", ONE, (1, 2), [], [1, 2], 17),
    ("all", BOTH, (5, 9), [], [], 0),
    ("all", BOTH, (-9, -1), [], [], 0),
    # What is left of a beam that is cut.
    ("0.5", ["1"], (3, 9), [], [3, 4], 18),
    ("0.5", ["1"], None, [], [0, 1, 2, 3, 4], 19),
]


def scanned(reach, ends, box, hits, frees, need):
    """Where there is room for sixteen groups, and in a large map with a list of what is known."""
    limit = "limit " + " ".join(f"{n / 10} 0 0" for n in box) if box else "nolimit"
    points = "".join(f" ; p {end} 0 0" for end in ends)
    scan = f"{limit} ; scan 0.05 0.05 0.05 1 0 0 0 {reach}{points} ; end"
    done = f"ok hits {len(hits)} frees {len(frees)}"
    rule = "A scan hits the ends of its beams, frees what they meet before, and needs their groups"
    yield Row(rule, "session 0.1 --max-groups 16", scan,
              f"ok / refused 23 Full groups 0 need {need}" if need > 16 else f"ok / {done}")
    blocks = [f"block {32768 + n} 32768 32768 850 occupied / " if n in hits else
              f"block {32768 + n} 32768 32768 -400 free / " for n in sorted(hits + frees)]
    yield Row(rule, "session 0.1", f"{scan} ; list -1 0 0 1 0 0 16",
              f"ok / {done} / {''.join(blocks)}end {len(blocks)}")


# Points near the middle of the map, in half edges from the lower corner of a block of three voxels
# on each axis, and these voxels.
POINTS, NEAR = list(product((0, 1, 3, 4), repeat=3)), list(product((0, 1, 2), repeat=3))


def is_met(start, end, voxel):
    """Whether a segment has a point in a voxel: it crosses faces at twelfths of its way alone, so
    that one of its 24ths lies in each voxel that it meets."""
    return any(all(48 * n <= (24 - part) * a + part * b < 48 * (n + 1)
                   for a, b, n in zip(start, end, voxel)) for part in range(25))


def beams():
    """A beam between each two of the points, and a list of what it has left in an empty map."""
    for start, end in product(POINTS, repeat=2):
        origin = " ".join(f"{(5 * n - 10) / 100}" for n in start)
        point = " ".join(f"{5 * (b - a) / 100}" for a, b in zip(start, end))
        yield (f"scan {origin} 1 0 0 0 all\np {point}\nend\n"
               "list -0.1 -0.1 -0.1 0.1 0.1 0.1 16\nclear\n").encode()


def left_by_beams():
    """What each leaves: the voxel of its end is hit, and each other one that it meets is freed."""
    for start, end in product(POINTS, repeat=2):
        met = [voxel for voxel in NEAR if is_met(start, end, voxel)]
        last = tuple(n // 2 for n in end)
        yield f"ok hits 1 frees {len(met) - 1}\n".encode()
        for voxel in met:
            value = "850 occupied" if voxel == last else "-400 free"
            yield "block {} {} {} {}\n".format(*(32767 + n for n in voxel), value).encode()
        yield f"end {len(met)}\nok\n".encode()


BEAMS = [Row("A beam meets the voxels in which it has a point", "session 0.1",
             lambda: b"".join(beams()), lambda: b"".join(left_by_beams()))]

ROWS = BEAMS + QUERIES + CASTS + FRONTIERS + PICTURES + TABLES + [
    row for case in SCANS for row in scanned(*case)
]
