"""What a map keeps beside its values, and where space is exact: staleness, the mark, the box of
scans; poses, cuts and orders."""
from row import DOWN, Row, bt, down, snap1, snap2, value
from worked import BOX, EIGHT_HITS

VOXEL_FILE = bt(17, DOWN + "0200")
FILES = {"m": VOXEL_FILE, "one": snap1(down(value(850), 16)), "two": snap2(b"\0"), "bad": b""}
STALE = "refused 22 Stale"


def session(rule, script, answer, options="", **left):
    """A row of a session in a folder that has a file of each kind."""
    return Row(rule, f"session 0.1 {options}", script, answer, files=FILES, left=left)


STALENESS = [
    session("A lazy edit that changes nothing makes a map stale, and so a lazy scan of nothing",
            "forget 0 0 0 lazy ; get 0 0 0 15 ; refresh ; get 0 0 0 15 ; "
            "scan 0 0 0 1 0 0 0 all lazy ; end ; get 0 0 0 0 ; get 0 0 0 16",
            f"ok / {STALE} / ok / unknown / ok hits 0 frees 0 / {STALE} / unknown"),
    session("A lazy edit of a voxel at its bound makes a map stale too",
            "set 0 0 0 3500 ; hit 0 0 0 lazy ; get 0 0 0 15", f"ok / ok / {STALE}"),
    session("A refused lazy edit makes no map stale",
            "hit 0 0 0 ; hit 4000 0 0 lazy ; get 0 0 0 15",
            "ok / refused 24 Outside point 1 / known 850 occupied"),
    session("An edit, a box, prune, counts and a refused load leave a map stale",
            "hit 0 0 0 lazy ; hit 0 0 0 ; box -3276.8 -3276.8 -3276.8 3276.7 3276.7 3276.7 add 0 ; "
            "prune ; counts ; load bad ; restore bad ; load none ; get 0 0 0 15",
            "ok / ok / ok / ok / groups 16 nodes 129 / refused 10 NotOctomap / "
            f"refused 20 BadMagic / refused 33 NoFile / {STALE}"),
] + [
    session("A map is no longer stale after refresh, maxlik, clear, load and restore",
            f"hit 0 0 0 lazy ; {line} ; get 0 0 0 15", f"ok / {answer}")
    for line, answer in [
        ("refresh", "ok / known 850 occupied"), ("maxlik", "ok / known 3500 occupied"),
        ("clear", "ok / unknown"), ("load m", "loaded 17 / known 3500 occupied"),
        ("restore one", "restored groups 16 / known 850 occupied"),
        ("restore two", "restored groups 0 / unknown"),
    ]
] + [
    session("A stale map casts, tells its changes and is saved",
            "track ; hit 0 0 0 lazy ; cast 0 0 0 1 0 0 ; changes ; save n ; list 0 0 0 0 0 0 16",
            "ok / ok / cast hit 32768 32768 32768 / new 32768 32768 32768 / end 1 / saved 169 / "
            "block 32768 32768 32768 850 occupied / end 1", n=VOXEL_FILE),
]

THRESHOLD = [
    session("From the threshold on a voxel is occupied, and maxlik makes it as sure as can be",
            "set 0 0 0 5 ; get 0 0 0 16 ; set 1 0 0 4 ; get 1 0 0 16 ; maxlik ; get 0 0 0 16 ; "
            "get 1 0 0 16",
            "ok / known 5 occupied / ok / known 4 free / ok / known 3500 occupied / "
            "known -2000 free", "--thr 5"),
    session("A voxel at the threshold stops a cast and counts as new since the mark",
            "track ; set 0.2 0 0 5 ; cast 0 0 0 1 0 0 ignore ; changes ; list 0.2 0 0 0.2 0 0 16",
            "ok / ok / cast hit 32770 32768 32768 / new 32770 32768 32768 / end 1 / "
            "block 32770 32768 32768 5 occupied / end 1", "--thr 5"),
]

MARKS = [
    session("Untrack, clear, load and restore take the mark away",
            f"track ; {line} ; changes", f"ok / {answer} / refused 28 NotTracked")
    for line, answer in [("untrack", "ok"), ("clear", "ok"), ("load m", "loaded 17"),
                         ("restore one", "restored groups 16"),
                         ("restore two", "restored groups 0")]
] + [
    session("A mark stays with maxlik, refused loads, changes and what changes no voxel",
            "hit 0 0 0 ; track ; maxlik ; load bad ; restore bad ; load none ; prune ; refresh ; "
            "save n ; changes ; forget 0 0 0 ; changes",
            "ok / ok / ok / refused 10 NotOctomap / refused 20 BadMagic / refused 33 NoFile / ok / "
            "ok / saved 169 / end 0 / ok / lost 32768 32768 32768 / end 1", n=VOXEL_FILE),
    session("A mark that is set anew begins anew, and untrack needs none",
            "untrack ; track ; hit 0 0 0 ; track ; changes", "ok / ok / ok / ok / end 0"),
    session("Changes of boxes and scans are told, by ascending x, then y, then z",
            "track ; box 0 0 0 0.1 0.1 0.1 hit ; scan 0.25 0.05 0.05 1 0 0 0 all ; p -0.1 0 0 ; "
            "end ; changes",
            "ok / ok / ok hits 1 frees 1 / "
            + " / ".join(f"new {32768 + x} {32768 + y} {32768 + z}"
                         for x in (0, 1) for y in (0, 1) for z in (0, 1))
            + " / new 32770 32768 32768 / end 9"),
]

WINDOWS = [
    session("Clear, load and a refused limit leave the box of scans, and other edits don't look "
            "at it",
            "limit 0 0 0 0 0 0 ; clear ; load m ; limit 1 0 0 0 0 0 ; limit 4000 0 0 0 0 0 ; "
            "hit 1 0 0 ; scan 0 0 0 1 0 0 0 all ; p 0.5 0 0 ; end ; get 1 0 0 16",
            "ok / ok / loaded 17 / refused 26 BadBox / refused 24 Outside point 1 / ok / "
            "ok hits 0 frees 1 / known 850 occupied"),
    session("Beams are judged whole, whatever box stands",
            "limit 0 0 0 0 0 0 ; scan 0 0 0 1 0 0 0 all ; p 1 0 0 ; end ; "
            "scan 0 0 0 1 0 0 0 all ; p 4000 0 0 ; end",
            "ok / refused 8 TooManyCells index 0 cells 11 / refused 7 PointOutside index 0",
            "--max-cells 10"),
    session("A scan wholly outside the box changes nothing, and makes a map stale where it is lazy",
            "limit 9 9 9 9 9 9 ; scan 0 0 0 1 0 0 0 all lazy ; p 1 0 0 ; end ; get 0 0 0 0",
            f"ok / ok hits 0 frees 0 / {STALE}"),
]


def turned(point, place):
    """A scan by the quaternion 1 2 3 4, and the one voxel that it hits in the box of that place."""
    middle = " ".join(f"{number}5" for number in place.split())
    return session("A quaternion of four numbers turns by q p q* over 30: 3 m along x, y and z go "
                   "to (-2, 2, 1), (0.4, -1, 2.8) and (2.2, 2, 0.4)",
                   f"limit {middle} {middle} ; scan 0.05 0.05 0.05 1 2 3 4 all ; p {point} ; end",
                   "ok / ok hits 1 frees 0")


SPACE = [
    turned("3 0 0", "-1.9 2.0 1.0"),
    turned("0 3 0", "0.4 -0.9 2.8"),
    turned("0 0 3", "2.2 2.0 0.4"),
    session("1 1 1 1 turns x to y, y to z and z to x; the beam to (30, 10, 20) crosses 40 times",
            "scan 0 0 0 1 1 1 1 all ; p 1 2 3 ; end ; get 3 1 2 16",
            "ok hits 1 frees 40 / known 850 occupied"),
    session("A turned point is rounded to the nearest nanometre before it is moved: 1 nm ahead "
            "goes to (-1, 1), and with the sensor at (0, -1) to (-1, 0)",
            "scan 0 -0.000000001 0 1 0 0 2 all ; p 0.000000001 0 0 ; end ; get -0.1 0 0 16",
            "ok hits 1 frees 2 / known 850 occupied"),
    session("A beam as long as the range isn't cut, and one of a nanometre more is",
            "scan 0 0 0 1 0 0 0 1 ; p 1 0 0 ; end ; scan 0 0 0 1 0 0 0 1 ; p 1.000000001 0 0 ; end",
            "ok hits 1 frees 10 / ok hits 0 frees 10"),
    session("A beam of (3, 4) m is cut at 1 m to (0.6, 0.8) m: it crosses twelve times, and the "
            "last voxel isn't freed", "scan 0 0 0 1 0 0 0 1 ; p 3 4 0 ; end ; get 0.6 0.8 0 16",
            "ok hits 0 frees 12 / unknown"),
    session("A length that is no whole number is rounded up: (3, 3) nm is 5, and cut at 3 nm goes "
            "to (1, 1)",
            "scan -0.000000002 -0.000000002 0 1 0 0 0 0.000000003 ; "
            "p 0.000000003 0.000000003 0 ; end", "ok hits 0 frees 0"),
    session("Another beam frees the voxel in which one is cut",
            "scan 0.01 0.09 0.05 1 0 0 0 0.5 ; p 1 0 0 ; p 0.4995 0.0101 0 ; end ; "
            "get 0.55 0.05 0.05 16", "ok hits 1 frees 6 / known -400 free"),
    session("A beam of no length hits its voxel, and many beams change a voxel once",
            "scan 0 0 0 1 0 0 0 all" + 9 * " ; p 0 0 0" + 9 * " ; p 0.1 0 0" + " ; end ; "
            "get 0 0 0 16 ; get 0.1 0 0 16",
            "ok hits 2 frees 0 / known 850 occupied / known 850 occupied"),
    session("A cast goes back by the same voxels, and asks both ends",
            "set 0.1 0.1 0 850 ; cast 0.25 0.25 0.05 0.05 0.05 0.05 ignore ; "
            "cast 0.1 0.1 0 0.1 0.1 0 ; cast 0 0 0 0.1 0.1 0 ignore ; cast 0 0 0 0 0 0 ; "
            "cast 0 0.2 0 0.2 0 0 ignore",
            "ok / cast hit 32769 32769 32768 / cast hit 32769 32769 32768 / "
            "cast hit 32769 32769 32768 / cast unknown 32768 32768 32768 / "
            "cast hit 32769 32769 32768"),
    session("A list goes by ascending x, then y, then z, and shows whole blocks",
            EIGHT_HITS + " ; list 0 0 0 0.1 0.1 0.1 16 ; set 0.1 0.1 0.1 3000 ; "
            "list 0 0 0 0 0 0 15",
            8 * "ok / " + " / ".join(f"block {32768 + x} {32768 + y} {32768 + z} 850 occupied"
                                     for x in (0, 1) for y in (0, 1) for z in (0, 1))
            + " / end 8 / ok / block 16384 16384 16384 3000 occupied / end 1"),
    Row("Boxes go by the Morton code, whose lowest bit is that of x, and then y and z", "vrml",
        bt(19, DOWN + "2802"),
        "#VRML V2.0 utf8 / " + " / ".join(BOX % (middle, "0.1 0.1 0.1") for middle in (
            "0.15 0.05 0.05", "0.05 0.15 0.05", "0.05 0.05 0.15"))),
    Row("The first row of a picture has the highest y", "project 0 0 0 0 0.1 0", VOXEL_FILE,
        b"P5\n1 2\n255\n\xCD\x00"),
    Row("A free voxel wins over unknown ones of its column", "project 0 0 -0.1 0 0 0.1",
        bt(17, DOWN + "0100"), b"P5\n1 1\n255\n\xFE"),
    Row("Each number of a script that is made has its own draw, in the order of the lines",
        "gen 0 2 2", "",
        "# octomap gen 0 2 2 / scan -0.17 -0.161 -0.962 1 0 0 -1 8 / p 2.751 1.46 -3.803 / "
        "p -1.463 2.596 -2.753 / end / scan 1.587 0.47 1.276 1 0 0 -2 8 / p 1.927 -2.43 -4.458 / "
        "p -3.317 -4.784 3.351 / end / quit"),
]

ROWS = STALENESS + THRESHOLD + MARKS + WINDOWS + SPACE
