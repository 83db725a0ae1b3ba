"""Which refusal comes where two hold: a row for each two that stand next to each other in the order
of the refusals of a command, a file or a task."""
from row import DOWN, Holes, Row, bt, down, parted, short_bt, snap1, snap2, value

BAD_FILE, TOO_LONG, STORE_FAULT = 3, 4, 8
FAR = "4000"
VOXEL_FILE = bt(17, DOWN + "0200")
# 19 records, of which the last has eight equal leaves: the tree of this map has 18 groups.
COARSE = bt(30, "00C0" + 13 * "0300" + "FF00" + 3 * "0200" + "AAAA")
# Voxels 0 and 2 have two blocks of depth 15, and share one of each depth above: 17 groups.
TWO_VOXELS = down(parted({i: parted({0: value(850)}) for i in (0, 1)}), 14)
OTHER = "refused 35 OtherResolution file 100000000 session 50000000"
NO_POINT = "refused 24 Outside point "


def session(rule, script, answer, options="", files=None):
    return Row(rule, f"session 0.1 {options}", script, answer, files=files or {})


def before(first, second, script, answer, options="", files=None):
    """A row of a session in which both hold, and the first is answered."""
    return session(f"First {first}, then {second}", script, answer, options, files)


EDITS = [
    before("a point outside", "too many groups", f"hit 0 0 0 ; {edit} ; {inside}",
           "ok / refused 24 Outside point 1 / refused 23 Full groups 16 need 16",
           "--max-groups 16")
    for edit, inside in [("hit 4000 0 0", "hit 1 0 0"), ("miss 0 4000 0", "miss 1 0 0"),
                         ("add 0 0 4000 0 lazy", "add 1 0 0 0 lazy"),
                         ("set -4000 0 0 1", "set 1 0 0 1"),
                         ("forget 0 -4000 0 lazy", "forget 1 0 0 lazy")]
] + [
    before("a faulty word", "a point outside", "hit 4000 0 0 x ; get 4000 0 0 ; cast 0 0 0 4000 0",
           "refused 29 Syntax line 1 column 14 / refused 29 Syntax line 2 column 13 / "
           "refused 29 Syntax line 3 column 18"),
    before("a line that is too long", "its faulty word", "fly" + 4094 * " ",
           "refused 30 LongLine line 1"),
]

BOXES = [
    before("the first point outside", "the second one outside", "box 4000 0 0 4000 0 0 hit ; "
           "cast 4000 0 0 0 4000 0 ; list 0 4000 0 0 0 4000 16 ; limit 0 0 4000 0 0 4000",
           " / ".join(4 * [NO_POINT + "1"])),
    before("a point outside", "corners in the wrong order", "box 4000 0 0 0 0 0 hit ; "
           "box 1 0 0 0 4000 0 hit ; box 1 0 0 0 0 0 hit",
           "refused 24 Outside point 1 / refused 24 Outside point 2 / refused 26 BadBox"),
    before("corners in the wrong order", "a box that is too wide under a mark",
           "track ; box -1000 -1000 1 1000 1000 0 hit ; box -1000 -1000 0 1000 1000 0 hit",
           "ok / refused 26 BadBox / refused 27 WideWhileTracked count 400040001"),
    # The voxels 1 to 128 cut 65 * 65 * 65 blocks of depth 15 less the 63 * 63 * 63 in it, and so on
    # to two on each axis at depth 9, and one of each depth above: 32,789 in all.
    before("a box that is too wide under a mark", "too many groups",
           "track ; box 0.1 0.1 0.1 12.8 12.8 12.8 hit ; untrack ; "
           "box 0.1 0.1 0.1 12.8 12.8 12.8 hit",
           "ok / refused 27 WideWhileTracked count 2097152 / ok / "
           "refused 23 Full groups 0 need 32789", "--max-groups 16"),
    before("a point outside", "a box of limit in the wrong order",
           "limit 4000 0 0 0 0 0 ; limit 1 0 0 0 0 4000 ; limit 1 0 0 0 0 0",
           "refused 24 Outside point 1 / refused 24 Outside point 2 / refused 26 BadBox"),
    session("The corners of a limit are judged before their order",
            "limit 4000 0 0 0 0 0 ; limit 1 0 0 0 0 0",
            "refused 24 Outside point 1 / refused 26 BadBox"),
    session("Corners are judged by their voxels: two points in one are in the right order",
            "box 0.09 0.09 0.09 0 0 0 hit ; limit 0.05 0 0 0.01 0 0 ; list 0.02 0 0 0.01 0 0 15",
            "ok / ok / block 16384 16384 16384 850 occupied / end 1"),
]

QUERIES = [
    before("a point outside", "a depth below 16", "get 4000 0 0 17 ; get 0 0 0 17",
           "refused 24 Outside point 1 / refused 25 BadDepth"),
    before("a depth that isn't there", "a stale map",
           "hit 0 0 0 lazy ; get 0 0 0 17 ; get 0 0 0 15",
           "ok / refused 25 BadDepth / refused 22 Stale"),
    before("a point outside", "a depth of a list",
           "list 4000 0 0 0 0 0 17 ; list 0 0 0 0 0 4000 17",
           "refused 24 Outside point 1 / refused 24 Outside point 2"),
    before("a depth that isn't there", "corners in the wrong order", "list 1 0 0 0 0 0 17 ; "
           "list 1 0 0 0 0 0 16", "refused 25 BadDepth / refused 26 BadBox"),
    before("corners in the wrong order", "a stale map", "hit 0 0 0 lazy ; list 1 0 0 0 0 0 15 ; "
           "list 0 0 0 1 0 0 15", "ok / refused 26 BadBox / refused 22 Stale"),
    # From 0 to 3000 m there are 30,001 voxels, in 15,001 blocks of depth 15.
    before("a stale map", "too many blocks", "hit 0 0 0 lazy ; list 0 0 0 3000 3000 3000 15 ; "
           "refresh ; list 0 0 0 3000 3000 3000 15",
           "ok / refused 22 Stale / ok / refused 9 TooManyBlocks count 3375675045001"),
]

SCANS = [
    before("a quaternion of 0", "a sensor outside", f"scan {FAR} 0 0 0 0 0 0 all ; end ; "
           f"scan {FAR} 0 0 1 0 0 0 all ; end",
           "refused 5 ZeroQuaternion / refused 6 OriginOutside"),
    before("a sensor outside", "a beam that ends outside",
           f"scan {FAR} 0 0 1 0 0 0 all ; p 1 0 0 ; end", "refused 6 OriginOutside"),
    before("a beam that ends outside", "too many voxels of an earlier one",
           "scan 0 0 0 1 0 0 0 all ; p 1 0 0 ; p 4000 0 0 ; end ; "
           "scan 0 0 0 1 0 0 0 all ; p 1 0 0 ; end",
           "refused 7 PointOutside index 1 / refused 8 TooManyCells index 0 cells 11",
           "--max-cells 10"),
    before("too many voxels", "too many groups", "scan 0 0 0 1 0 0 0 all ; p 0.2 0 0 ; p 0.4 0 0 ; "
           "end", "refused 8 TooManyCells index 1 cells 8", "--max-cells 7 --max-groups 16"),
    session("A scan is refused for the groups that it needs",
            "scan 0 0 0 1 0 0 0 all ; p 0.2 0 0 ; p 0.4 0 0 ; end",
            "refused 23 Full groups 0 need 19", "--max-cells 8 --max-groups 18"),
    before("an open scan", "its quaternion of 0", "scan 0 0 0 0 0 0 0 all",
           "refused 31 OpenScan line 1"),
    before("a faulty line", "the open scan around it", "scan 0 0 0 1 0 0 0 all ; p 1 0",
           "refused 29 Syntax line 2 column 6"),
    before("a head at fault", "a faulty line in its scan", "scan 0 0 0 1 0 0 0 ; p 1 0 ; end",
           "refused 29 Syntax line 1 column 19"),
    before("a line that is too long", "a faulty one after it",
           "scan 0 0 0 1 0 0 0 all ; #" + 4096 * "-" + " ; p 1 0 ; end",
           "refused 30 LongLine line 2"),
    before("a faulty line", "one that is too long after it",
           "scan 0 0 0 1 0 0 0 all ; p 1 0 ; #" + 4096 * "-" + " ; end",
           "refused 29 Syntax line 2 column 6"),
    before("a faulty line", "a quaternion of 0", "scan 0 0 0 0 0 0 0 all ; counts ; end",
           "refused 29 Syntax line 2 column 1"),
    Row("First too many points, then the open scan and what follows them", "session 0.1",
        lambda: b"scan 0 0 0 0 0 0 0 all\n" + 1000001 * b"p 0 0 0\n" + b"p\n",
        "refused 32 TooManyPoints line 1000002"),
    Row("First a faulty line, then too many points after it", "session 0.1",
        lambda: b"scan 0 0 0 0 0 0 0 all\np\n" + 1000001 * b"p 0 0 0\n",
        "refused 29 Syntax line 2 column 2"),
]

FILES = [
    session("A name without a file is refused, and a word that is no name before",
            "load m ; restore m ; load .m",
           "refused 33 NoFile / refused 33 NoFile / refused 29 Syntax line 3 column 6"),
    before("a file that is too large", "what it begins with", "load m ; restore m",
           "refused 34 FileTooLarge / refused 34 FileTooLarge",
           files={"m": Holes(b"", 2 ** 30 + 1)}),
    Row("First a fault of a file, then its resolution", "session 0.05", "load m ; restore s",
        "refused 19 SizeMismatch said 18 found 17 / refused 18 TrailingBytes at 17",
        files={"m": bt(18, DOWN + "0200"), "s": snap1(b"\0\0")}),
    Row("First another resolution, then too many groups",
        "session 0.05 --max-groups 16", "load c ; restore s", f"{OTHER} / {OTHER}",
        files={"c": COARSE, "s": snap1(TWO_VOXELS)}),
    Row("First another resolution of a snapshot of version 2, then too many groups",
        "session 0.05 --max-groups 16", "restore s", OTHER, files={"s": snap2(TWO_VOXELS)}),
    session("A load needs a group for each record, those that could be merged too",
            "load c", "refused 23 Full groups 0 need 19", "--max-groups 18", {"c": COARSE}),
    session("A load with room for its records is done, and the map has a group less",
            "load c ; counts", "loaded 30 / groups 18 nodes 22", "--max-groups 19", {"c": COARSE}),
    session("A restore needs the groups of its values, and those of the map before don't count",
            "hit 0 0 0 ; restore s ; counts", "ok / restored groups 17 / groups 17 nodes 19",
            "--max-groups 17", {"s": snap1(TWO_VOXELS)}),
    session("A restore with room for a group less isn't done, and the map stays",
            "miss 0 0 0 ; restore s ; get 0 0 0 16",
            "ok / refused 23 Full groups 0 need 17 / known -400 free",
            "--max-groups 16", {"s": snap1(TWO_VOXELS)}),
]

STATUSES = [
    Row("An input that is too long counts more than a refusal", "session 0.1 --max-bytes 4",
        "fly ; fly", "refused 29 Syntax line 1 column 1", TOO_LONG),
    Row("An input isn't too long where a quit ends before that", "session 0.1 --max-bytes 9",
        "fly ; quit ; fly", "refused 29 Syntax line 1 column 1", 1),
    Row("A quit that is cut off is none", "session 0.1 --max-bytes 8", "fly ; quit ; fly",
        "refused 29 Syntax line 1 column 1", TOO_LONG),
    Row("Of a build that is too long nothing is written", "build 0.1 --max-bytes 10",
        "hit 0 0 0 ; hit 0 0 0", "", TOO_LONG),
    Row("What a build saved before its script was too long stays", "build 0.1 --max-bytes 17",
        "hit 0 0 0 ; save m ; hit 0 0 0", "", TOO_LONG, left={"m": VOXEL_FILE}),
    Row("A scan that is cut off isn't answered", "session 0.1 --max-bytes 33",
        "scan 0 0 0 1 0 0 0 all ; p 1 0 0 ; end", "", TOO_LONG),
    Row("A task's input that is too long counts more than its faults", "inspect --max-bytes 3",
        b"fly\n", "", TOO_LONG),
]

TASKS = [
    Row("First a bad file, then points outside", f"frontier {FAR} 0 0 0 0 0", b"fly\n",
        "refused 10 NotOctomap", BAD_FILE),
    Row("First a bad file of a picture, then points outside",
        f"project {FAR} 0 0 0 0 0", b"fly\n", "refused 10 NotOctomap",
        BAD_FILE),
    Row("First a point outside, then corners in the wrong order", f"frontier 1 0 0 0 {FAR} 0",
        VOXEL_FILE, "refused 24 Outside point 2"),
    Row("First a point outside a picture, then corners in the wrong order",
        f"project 1 0 0 0 {FAR} 0", VOXEL_FILE,
        "refused 24 Outside point 2"),
    Row("First the first point, then the second", f"frontier {FAR} 0 0 0 {FAR} 0",
        VOXEL_FILE, "refused 24 Outside point 1"),
    Row("A frontier of corners in the wrong order is none, however long",
        "frontier -3276.8 -3276.8 3276.7 3276.7 3276.7 -3276.8", short_bt(5, "1111"),
        "refused 26 BadBox"),
    Row("A picture of corners in the wrong order is none, however wide",
        "project -3276.8 -3276.8 3276.7 3276.7 3276.7 -3276.8", VOXEL_FILE, "refused 26 BadBox"),
    Row("Points are judged by the file's resolution: here they lie outside", "frontier 4 0 0 4 0 0",
        short_bt(9, "5555", "0.0001"), "refused 24 Outside point 1"),
    Row("Points are judged by the file's resolution: here they lie in the map",
        f"frontier {FAR} 0 0 {FAR} 0 0", short_bt(9, "5555", "1"),
        "end 0"),
    Row("First the first file, then the second", "merge least a b", "", "first refused 33 NoFile",
        1),
    Row("First a fault of the first file, then the second",
        "merge least a b", "", "first refused 10 NotOctomap", 1,
        {"a": b""}),
    Row("First a fault of the second file, then its resolution", "merge least a b", "",
        "second refused 18 TrailingBytes at 59", 1,
        {"a": VOXEL_FILE, "b": short_bt(0, "00", "0.2")}),
    Row("The second file's resolution is named as the file's", "merge least a b", "",
        "refused 35 OtherResolution file 200000000 session 100000000", 1,
        {"a": VOXEL_FILE, "b": short_bt(0, "", "0.2")}),
    Row("First another resolution, then points outside", f"table a b {FAR} 0 0 0 0 0", "",
        "refused 35 OtherResolution file 200000000 session 100000000", 1,
        {"a": VOXEL_FILE, "b": short_bt(0, "", "0.2")}),
    Row("First a point outside a table, then corners in the wrong order",
        f"table a a 1 0 0 0 0 {FAR}", "",
        "refused 24 Outside point 2", 1, {"a": VOXEL_FILE}),
    Row("The corners of a table are refused in the wrong order",
        "table a a 1 0 0 0 0 0", "", "refused 26 BadBox", 1,
        {"a": VOXEL_FILE}),
]

ROWS = EDITS + BOXES + QUERIES + SCANS + FILES + STATUSES + TASKS
