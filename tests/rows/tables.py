"""Tables of runs: for each rule the scripts, or the words and files, that show it."""
from row import DOWN, Row, bt, data, down, head, parted, short_bt, snap1, snap2, value
from worked import (BOX, EIGHT_FILE, EMPTY_SNAP, FREE_FILE, FREE_HALF, SCAN_FILE, TWO_CLASSES,
                    VOXEL_FILE, VOXEL_SNAP)

# Scripts of a session at 0.1 m, and their replies.
SCRIPTS = {
    "Values are clamped at each step, and a voxel has its lower faces": [
        ("hit 0 0 0 ; get -0.05 -0.05 -0.05 16", "ok / unknown"),
        ("hit 0.05 0.05 0.05 ; get 0.099999999 0 0 16 ; get 0.1 0 0 16",
         "ok / known 850 occupied / unknown"),
        ("add 0 0 0 0 ; get 0 0 0 16 ; set 0 0 0 -1 ; get 0 0 0 16 ; set 1 0 0 1000000 ; "
         "get 0 0 0 16", "ok / known 0 occupied / ok / known -1 free / ok / known -1 free"),
    ],
    "Blocks answer their largest value once they are refreshed": [
        ("set 0 0 0 3500 ; hit 0 0 0 lazy ; prune ; counts ; get 4000 0 0 17 ; get 0 0 0 17 ; "
         "get 0 0 0 0",
         "ok / ok / ok / groups 16 nodes 17 / refused 24 Outside point 1 / refused 25 BadDepth / "
         "refused 22 Stale"),
        ("hit 0 0 0 lazy ; clear ; get 0 0 0 0 ; counts ; hit 0 0 0 ; get 0 0 0 0",
         "ok / ok / unknown / groups 0 nodes 0 / ok / known 850 occupied"),
        ("miss 0 0 0 ; hit 0.1 0 0 lazy ; maxlik ; get 0 0 0 16 ; get 0.2 0 0 16 ; get 0 0 0 0 ; "
         "counts ; set 0.1 0 0 -1 ; maxlik ; get 0.1 0 0 16 ; get 0 0 0 0",
         "ok / ok / ok / known -2000 free / unknown / known 3500 occupied / groups 16 nodes 18 / "
         "ok / ok / known -2000 free / known -2000 free"),
        ("hit 0 0 0 lazy ; box -0.1 -0.1 -0.1 0.05 0 0 set 70 ; get 0 0 0 16 ; "
         "get -0.1 0 -0.1 16 ; get 0.1 0 0 16 ; get 0 0 0 15 ; refresh ; get 0 0 0 0 ; counts",
         "ok / ok / known 70 occupied / known 70 occupied / unknown / refused 22 Stale / ok / "
         "known 70 occupied / groups 121 nodes 129"),
        ("box 0 0 0 4000 0 0 hit ; box 4000 0 0 4000 0 0 hit ; box 0 0.1 0 1 0 1 hit ; "
         "box 0.05 0 0 0 0 0 miss ; get 0 0 0 0 ; "
         "box -3276.8 -3276.8 -3276.8 3276.75 3276.7 3276.7 add 5 ; get 9 9 9 16 ; counts",
         "refused 24 Outside point 2 / refused 24 Outside point 1 / refused 26 BadBox / ok / "
         "known -400 free / ok / known 5 occupied / groups 16 nodes 129"),
    ],
    "Counts are the least that the values need": [
        ("counts", "groups 0 nodes 0"),
        ("hit 0 0 0 ; forget 0 0 0 ; counts", "ok / ok / groups 0 nodes 0"),
    ],
    "Casts name what stops them": [
        ("cast 0 0 0 0.3 0 0 ; cast 0 0 0 0.3 0 0 ignore",
         "cast unknown 32768 32768 32768 / cast clear"),
        ("miss 0 0 0 ; miss 0.1 0 0 ; hit 0.2 0 0 ; hit 0.4 0 0 ; cast 0 0 0 0.5 0 0 ; "
         "cast 0.5 0 0 0 0 0 ; cast 0.5 0 0 0 0 0 ignore ; cast 0 0 0 0.1 0 0",
         "ok / ok / ok / ok / cast hit 32770 32768 32768 / cast unknown 32773 32768 32768 / "
         "cast hit 32772 32768 32768 / cast clear"),
        ("hit -0.1 0 0.2 lazy ; cast -0.1 0 0.2 -0.1 0 0.2 ; get 0 0 0 15",
         "ok / cast hit 32767 32768 32770 / refused 22 Stale"),
        ("cast 4000 0 0 4000 0 0 ; cast 0 0 0 0 4000 0 ignore ; cast 4000 0 0 0 0 0",
         "refused 24 Outside point 1 / refused 24 Outside point 2 / refused 24 Outside point 1"),
        ("scan 0 0 0 1 0 0 0 all ; p 0.3 0 0 ; end ; cast 0 0 0 1 0 0 ; maxlik ; get 0.2 0 0 16 ; "
         "clear ; cast 0 0 0 1 0 0",
         "ok hits 1 frees 3 / cast hit 32771 32768 32768 / ok / known -2000 free / ok / "
         "cast unknown 32768 32768 32768"),
    ],
    "A line that is quit ends the session": [
        (b"quit", ""),
        (b" quit\t\r\nhit\n", ""),
        (b"hit\nquit\nrefresh", "refused 29 Syntax line 1 column 4"),
        ("quit 1 ; hit 0 0 0", "refused 29 Syntax line 1 column 6 / ok"),
        (b"quit\r", "refused 29 Syntax line 1 column 1"),
        ("# quit ; hit 0 0 0", "ok"),
    ],
    "Refusals name line and column": [
        ("get 0 0 ; hit 0 0 x ; hit 4000 0 0 ; get 0 0 0 17 ; box 1 0 0 0 0 0 forget",
         "refused 29 Syntax line 1 column 8 / refused 29 Syntax line 2 column 9 / "
         "refused 24 Outside point 1 / refused 25 BadDepth / refused 26 BadBox"),
        ("changed ; saves m ; lists 0 0 0 1 1 1 16 ; tracks ; get 0 0 0 0016 ; get 0 0 0 12345678",
         "refused 29 Syntax line 1 column 1 / refused 29 Syntax line 2 column 1 / "
         "refused 29 Syntax line 3 column 1 / refused 29 Syntax line 4 column 1 / unknown / "
         "refused 29 Syntax line 6 column 11"),
        (b"p 1 0 0\n end\nend 1\np\n",
         "refused 29 Syntax line 1 column 1 / refused 29 Syntax line 2 column 2 / "
         "refused 29 Syntax line 3 column 1 / refused 29 Syntax line 4 column 1"),
        ("hit 0 0 0 lazy lazy ; counts 1 ; refresh lazy ; prune x ; hit 0 0 lazy",
         "refused 29 Syntax line 1 column 16 / refused 29 Syntax line 2 column 8 / "
         "refused 29 Syntax line 3 column 9 / refused 29 Syntax line 4 column 7 / "
         "refused 29 Syntax line 5 column 9"),
        ("hit 0 0 0 x ; hit x 0 0 ; hit ; get 0 0 0 ; set 0 0 0 1000001",
         "refused 29 Syntax line 1 column 11 / refused 29 Syntax line 2 column 5 / "
         "refused 29 Syntax line 3 column 4 / refused 29 Syntax line 4 column 10 / "
         "refused 29 Syntax line 5 column 11"),
        ("miss 0 3276.8 0 ; get 0 3276.7 0 16", "refused 24 Outside point 1 / unknown"),
    ],
    "The map has its lowest faces and not its highest": [
        ("get 3276.799999999 0 0 16", "unknown"),
        ("get 0 3276.799999999 0 16", "unknown"),
        ("get 0 0 3276.799999999 16", "unknown"),
        ("get -3276.8 0 0 16", "unknown"),
        ("get 0 -3276.8 0 16", "unknown"),
        ("get 0 0 -3276.8 16", "unknown"),
        ("get 3276.8 0 0 16", "refused 24 Outside point 1"),
        ("get 0 3276.8 0 16", "refused 24 Outside point 1"),
        ("get 0 0 3276.8 16", "refused 24 Outside point 1"),
        ("get -3276.800000001 0 0 16", "refused 24 Outside point 1"),
        ("get 0 -3276.800000001 0 16", "refused 24 Outside point 1"),
        ("get 0 0 -3276.800000001 16", "refused 24 Outside point 1"),
        ("hit 4000 0 0 ; get 0 0 0 16", "refused 24 Outside point 1 / unknown"),
    ],
    "Lines end with a line feed, and blanks and comments are passed over": [
        (b"hit 0 0 0\r\nget 0 0 0 16", "ok / known 850 occupied"),
        (b"\n \t\n# hit 0\n  # hit\n\r\nhit 0 0 \n", "refused 29 Syntax line 6 column 9"),
        (b"\t hit \t 0  0\t0 \t\n", "ok"),
        (b"#\r", ""),
    ],
    "Lists show the known blocks in order": [
        ("scan 0.05 0.05 0.05 1 0 0 0 all ; p 0.2 0 0 ; p 0.4 0 0 ; end ; list 0 0 0 0.4 0 0 16",
         "ok hits 2 frees 3 / block 32768 32768 32768 -400 free / "
         "block 32769 32768 32768 -400 free / block 32770 32768 32768 850 occupied / "
         "block 32771 32768 32768 -400 free / block 32772 32768 32768 850 occupied / end 5"),
        ("hit 0 0 0 ; miss 0.1 0.1 0.1 ; list 0.1 0 0 0.1 0 0 15 ; list 0 0 0 0 0 0 0 ; "
         "list 1 1 1 2 2 2 16",
         "ok / ok / block 16384 16384 16384 850 occupied / end 1 / block 0 0 0 850 occupied / "
         "end 1 / end 0"),
        ("list 0 0 0 9.9 9.9 9.9 16 ; list 0 0 0 10 990 0 16",
         "end 0 / refused 9 TooManyBlocks count 1000001"),
        ("hit 0 0 0 lazy ; list 4000 0 0 0 0 0 17 ; list 0 0 0 4000 0 0 17 ; "
         "list 1 0 0 0 0 0 17 ; list 1 0 0 0 0 0 15 ; list 0 0 0 0 0 0 15 ; list 0 0 0 0 0 0 16",
         "ok / refused 24 Outside point 1 / refused 24 Outside point 2 / refused 25 BadDepth / "
         "refused 26 BadBox / refused 22 Stale / block 32768 32768 32768 850 occupied / end 1"),
    ],
    "Changes are those since the mark": [
        ("hit 0 0 0 ; miss 0.1 0 0 ; hit 0.2 0 0 ; track ; hit 0.3 0 0 lazy ; forget 0.2 0 0 ; "
         "set 0.1 0 0 5 ; set 0 0 0 -1 ; hit 0.4 0 0 ; forget 0.4 0 0 ; changes ; track ; "
         "changes ; untrack ; changes ; untrack",
         "ok / ok / ok / ok / ok / ok / ok / ok / ok / ok / freed 32768 32768 32768 / "
         "occupied 32769 32768 32768 / lost 32770 32768 32768 / new 32771 32768 32768 / end 4 / "
         "ok / end 0 / ok / refused 28 NotTracked / ok"),
        ("track ; hit 0 0 0 ; clear ; changes", "ok / ok / ok / refused 28 NotTracked"),
        ("track ; box 0 0 0 12.7 12.7 12.7 set 850 ; changes",
         "ok / refused 27 WideWhileTracked count 2097152 / end 0"),
        ("track ; box 0 0 0 9.9 9.9 9.9 set 850 ; box 0 0 0 10 990 0 hit ; untrack",
         "ok / ok / refused 27 WideWhileTracked count 1000001 / ok"),
        ("track ; box 0 0 0 0.1 0.1 0.1 set 850 ; changes",
         "ok / ok / new 32768 32768 32768 / new 32768 32768 32769 / new 32768 32769 32768 / "
         "new 32768 32769 32769 / new 32769 32768 32768 / new 32769 32768 32769 / "
         "new 32769 32769 32768 / new 32769 32769 32769 / end 8"),
        ("miss 0.1 0 0 ; hit 0.2 0 0 ; track ; scan 0.05 0.05 0.05 1 0 0 0 all 900 -900 ; "
         "p 0.1 0 0 ; p 0.3 0 0 ; end ; changes ; box 0 0 0 0.3 0 0 forget ; changes",
         "ok / ok / ok / ok hits 2 frees 2 / new 32768 32768 32768 / "
         "occupied 32769 32768 32768 / freed 32770 32768 32768 / new 32771 32768 32768 / end 4 / "
         "ok / lost 32769 32768 32768 / lost 32770 32768 32768 / end 2"),
    ],
    "Scans keep to their box and to their own log-odds": [
        ("scan 0.05 0.05 0.05 1 0 0 0 all 1 -1 ; p 0.2 0 0 ; end ; list 0 0 0 0.2 0 0 16 ; "
         "scan 0.05 0.05 0.05 1 0 0 0 all ; p 0.2 0 0 ; end ; get 0.2 0 0 16 ; get 0 0 0 16",
         "ok hits 1 frees 2 / block 32768 32768 32768 -1 free / "
         "block 32769 32768 32768 -1 free / block 32770 32768 32768 1 occupied / end 3 / "
         "ok hits 1 frees 2 / known 851 occupied / known -401 free"),
        ("scan 0.05 0.05 0.05 1 0 0 0 all 1000000 -1000000 lazy ; p 0.1 0 0 ; end ; "
         "get 0.1 0 0 16 ; get 0 0 0 16 ; get 0 0 0 15 ; scan 0 0 0 1 0 0 0 all 0 -1 ; end ; "
         "scan 0 0 0 1 0 0 0 all 1 0 ; end",
         "ok hits 1 frees 1 / known 3500 occupied / known -2000 free / refused 22 Stale / "
         "refused 29 Syntax line 7 column 24 / refused 29 Syntax line 9 column 26"),
        ("track ; limit 0.2 0 0 0.2 0 0 ; scan 0.05 0.05 0.05 1 0 0 0 all ; p 0.4 0 0 ; "
         "p 0 0.4 0 ; end ; list 0 0 0 0.4 0.4 0 16 ; changes",
         "ok / ok / ok hits 0 frees 1 / block 32770 32768 32768 -400 free / end 1 / "
         "new 32770 32768 32768 / end 1"),
        ("limit 0.2 0 0 0.2 0 0 ; limit 1 0 0 0 0 0 ; limit 4000 0 0 0 0 0 ; "
         "limit 0 0 0 4000 0 0 ; hit 0 0 0 ; scan 0.05 0.05 0.05 1 0 0 0 all ; p 0.2 0 0 ; end ; "
         "nolimit ; scan 0.05 0.05 0.05 1 0 0 0 all ; p 0.2 0 0 ; end",
         "ok / refused 26 BadBox / refused 24 Outside point 1 / refused 24 Outside point 2 / "
         "ok / ok hits 1 frees 0 / ok / ok hits 1 frees 2"),
    ],
    "Scans free what beams cross and hit where they end": [
        ("scan 0.05 0.05 0.05 1 0 0 0 all ; p 0.2 0 0 ; p 0.4 0 0 ; end ; counts ; get 0 0 0 16 ; "
         "get 0.1 0 0 16 ; get 0.2 0 0 16 ; get 0.3 0 0 16 ; get 0.4 0 0 16",
         "ok hits 2 frees 3 / groups 19 nodes 24 / known -400 free / known -400 free / "
         "known 850 occupied / known -400 free / known 850 occupied"),
        ("scan 0.05 0.05 0.05 1 0 0 0 0.5 ; p 1 0 0 ; end ; get 0.4 0 0 16 ; get 0.5 0 0 16",
         "ok hits 0 frees 5 / known -400 free / unknown"),
        ("scan 0.05 0.05 0.05 1 0 0 1 all ; p 0.2 0 0 ; end ; get 0 0.2 0 16",
         "ok hits 1 frees 2 / known 850 occupied"),
        ("scan 0 0 0 1 0 0 0 all lazy ; end ; get 0 0 0 15 ; refresh ; get 0 0 0 15",
         "ok hits 0 frees 0 / refused 22 Stale / ok / unknown"),
        ("scan 0.05 0.05 0.05 1 0 0 0 all lazy ; p 0.2 0 0 ; end ; get 0.2 0 0 16 ; get 0.2 0 0 15",
         "ok hits 1 frees 2 / known 850 occupied / refused 22 Stale"),
    ],
    "A block of lines has one reply": [
        ("scan 0.05 0.05 0.05 1 0 0 0 all lazy ; p 0.2 0 0 ; # aside ; p 0.4 0 0 ; end ; "
         "get 0 0 0 16 ; get 0.1 0 0 16 ; get 0 0 0 15",
         "ok hits 2 frees 3 / known -400 free / known -400 free / refused 22 Stale"),
        ("scan 0 0 0 1 0 0 0 all ; p 1 0 ; hit 0 0 x ; end ; get 0 0 0 16",
         "refused 29 Syntax line 2 column 6 / unknown"),
        ("scan 0 ; p 1 0 ; end ; get 0 0 0 16", "refused 29 Syntax line 1 column 7 / unknown"),
        ("prune ; scan 0 0 0 0 0 0 0 all lazy ; p 1 0 0", "ok / refused 31 OpenScan line 2"),
        (b"scan 0.05 0.05 0.05 1 0 0 0 all\n\n# p\n \t\n p 0.2\t0 0 \r\n end \n",
         "ok hits 1 frees 2"),
        (b"scan 0 0 0 1 0 0 0 all\nend", "ok hits 0 frees 0"),
        ("scan x ; p 1 0 0 ; end ; hit 0 0 0 ; scan 0 0 0 1 0 0 0 all ; end",
         "refused 29 Syntax line 1 column 6 / ok / ok hits 0 frees 0"),
        ("scan 0 0 0 1 0 0 0 all ; lists 0 0 0 0 0 0 16 ; end ; hit 0 0 0",
         "refused 29 Syntax line 2 column 1 / ok"),
        ("scan 0 0 0 1 0 0 0 all ; quit ; end ; hit 0 0 0",
         "refused 29 Syntax line 2 column 1 / ok"),
        (b"scan 0 0 0 0 0 0 0 all\nhit", "refused 29 Syntax line 2 column 1"),
        (b"\nscan 0 0 0 0 0 0 0 all", "refused 31 OpenScan line 2"),
        ("scan 0 0 0 1 0 0 0 all ; p 1 0 0 ; p 4000 0 0 ; end ; get 0 0 0 16",
         "refused 7 PointOutside index 1 / unknown"),
    ],
}

# Options of such a session, scripts, their replies, and the status.
LIMITS = {
    "A full map refuses edits": [
        ("--max-groups 31", "hit 0 0 0 lazy ; hit 0.1 0 0 lazy ; get 0.1 0 0 16",
         "ok / refused 23 Full groups 16 need 16 / unknown", 1),
    ],
    "A scan meets limits": [
        ("--max-cells 1", "scan 0 0 0 1 0 0 0 all ; p 1 0 0 ; p 4000 0 0 ; end",
         "refused 7 PointOutside index 1", 1),
        ("--max-groups 16", "scan 0.05 0.05 0.05 1 0 0 0 all ; p 0.2 0 0 ; p 0.4 0 0 ; end",
         "refused 23 Full groups 0 need 19", 1),
        ("--max-groups 19", "scan 0.05 0.05 0.05 1 0 0 0 all ; p 0.2 0 0 ; p 0.4 0 0 ; end",
         "ok hits 2 frees 3", 0),
        ("--max-bytes 41", "hit 0 0 0 ; scan 0 0 0 1 0 0 0 all ; p 1 0 0 ; end", "ok", 4),
        ("--max-bytes 44", "hit 0 0 0 ; scan 0 0 0 1 0 0 0 all ; p 1 0 0 ; end", "ok", 4),
        ("--max-bytes 45", "hit 0 0 0 ; scan 0 0 0 1 0 0 0 all ; p 1 0 0 ; end",
         "ok / ok hits 1 frees 10", 0),
    ],
    "A limit of bytes counts before, in and after a line": [
        ("--max-bytes 0", "hit 0 0 0 ; get 0 0 0 16", "", 4),
        ("--max-bytes 9", "hit 0 0 0 ; get 0 0 0 16", "", 4),
        ("--max-bytes 22", "hit 0 0 0 ; get 0 0 0 16", "ok", 4),
        ("--max-bytes 24", "hit 0 0 0 ; get 0 0 0 16", "ok / known 850 occupied", 0),
        ("--max-bytes 13", "hit ; hit 0 0 0", "refused 29 Syntax line 1 column 4", 4),
        ("--max-bytes 14", "hit 0 0 0 ; quit ; hit 0 0 0", "ok", 4),
        ("--max-bytes 15", "hit 0 0 0 ; quit ; hit 0 0 0", "ok", 0),
        ("--max-bytes 16", "hit 0 0 0 ; quit ; hit 0 0 0", "ok", 0),
        ("--max-bytes 9", b"hit\nquit\nhit", "refused 29 Syntax line 1 column 4", 1),
        ("--max-bytes 14", b"hit 0 0 0\nquit", "ok", 0),
        ("--max-bytes 13", b"hit 0 0 0\nquit", "ok", 4),
    ],
}

# A map of several blocks: of the map's eight the first is occupied, but for an eighth of it that is
# free and the one beside that, which is unknown; the second is free, and the last one occupied.
PARTS = short_bt(11, "0780" + "A1AA")
WHOLE_MAP = short_bt(9, "AAAA")
EMPTY = short_bt(0, "")
FLOAT = b"# Octomap OcTree file\n"
ONE = short_bt(17, DOWN + "0100")
FACE = "-3276.8 -3276.8"


def data_of(child, code):
    """The record of a block that knows one child, by that child's code."""
    return (code << 2 * child).to_bytes(2, "little").hex()


def corner(eighths):
    """The file of the one voxel in a corner of the map, which is the same child of each block, at
    an edge of 100 m less a nanometre or of 100 m."""
    return short_bt(17, 15 * data_of(eighths, 3) + data_of(eighths, 2),
                    "100" if eighths == 0 else "99.999999999")


# Words of a task over a file, the file, what is written, and the status.
TASKS = {
    "A frontier is listed or refused": [
        ("frontier -0.2 0 0 -0.2 0 0 --max-bytes 1000", FREE_HALF, "end 0", 0),
        ("frontier 3276.8 0 0 9999 0 0", ONE, "refused 24 Outside point 1", 1),
        ("frontier 0 0 0 3276.8 -1 0", ONE, "refused 24 Outside point 2", 1),
        ("frontier 0 0 0 0 0 -0.1", ONE, "refused 26 BadBox", 1),
        ("frontier 9999 0 0 0 0 0", FLOAT, "refused 11 FloatTree", 3),
        ("frontier 0 0 0 0 0 0 --max-bytes 10", ONE, "", 4),
    ],
    "A grid shows each column: a band from below to above, rows from the highest y": [
        ("project -0.1 -0.1 -0.1 0 0 0", PARTS, b"P5\n2 2\n255\n\xCD\x00\x00\xFE", 0),
        ("project -0.1 -0.1 0 0 0 9", PARTS, b"P5\n2 2\n255\n\xCD\x00\xCD\xCD", 0),
        (f"project -1638.5 {FACE} -1638.4 {FACE} --max-bytes 70", PARTS,
         b"P5\n2 1\n255\n\xFE\xCD", 0),
        ("project 9 -9 1 9 -9 1", EMPTY, b"P5\n1 1\n255\n\xCD", 0),
        ("project -3276.8 1 -3276.8 -3276.5 1.2 3276.7", WHOLE_MAP,
         b"P5\n4 3\n255\n" + 12 * b"\0", 0),
    ],
    "A scene has each box": [
        ("vrml --max-bytes 61", WHOLE_MAP,
         "#VRML V2.0 utf8 / " + BOX % ("0 0 0", "6553.6 6553.6 6553.6"), 0),
        ("vrml", PARTS, "#VRML V2.0 utf8 / " + " / ".join(
            [BOX % (middle, "1638.4 1638.4 1638.4") for middle in (
                "-2457.6 -819.2 -2457.6", "-819.2 -819.2 -2457.6", "-2457.6 -2457.6 -819.2",
                "-819.2 -2457.6 -819.2", "-2457.6 -819.2 -819.2", "-819.2 -819.2 -819.2")]
            + [BOX % ("1638.4 1638.4 1638.4", "3276.8 3276.8 3276.8")]), 0),
    ],
    "A middle is told to the half nanometre, on both sides of 0 and at the ends of the map": [
        ("vrml", short_bt(17, "00C0" + 14 * "0300" + "0800", "0.000100001"),
         "#VRML V2.0 utf8 / " + BOX % ("0.0001500015 0.0000500005 0.0000500005",
                                       "0.000100001 0.000100001 0.000100001"), 0),
        ("vrml", short_bt(17, data_of(5, 3) + 14 * data_of(2, 3) + data_of(2, 2), "0.000100001"),
         "#VRML V2.0 utf8 / " + BOX % ("0.0000500005 -0.0000500005 0.0000500005",
                                       "0.000100001 0.000100001 0.000100001"), 0),
        ("vrml", short_bt(16, "00C0" + 13 * "0300" + "0200", "0.000100001"),
         "#VRML V2.0 utf8 / " + BOX % (" ".join(3 * ["0.000100001"]),
                                       " ".join(3 * ["0.000200002"])), 0),
        ("vrml", short_bt(2, "0200"),
         "#VRML V2.0 utf8 / " + BOX % (" ".join(3 * ["-1638.4"]), " ".join(3 * ["3276.8"])), 0),
        ("vrml", corner(0),
         "#VRML V2.0 utf8 / " + BOX % (" ".join(3 * ["-3276750"]), "100 100 100"), 0),
        ("vrml", corner(7),
         "#VRML V2.0 utf8 / " + BOX % (" ".join(3 * ["3276749.9999672325"]),
                                       " ".join(3 * ["99.999999999"])), 0),
    ],
    "What is too much of a grid or a scene is refused": [
        ("project 3276.8 0 0 9999 0 0", EIGHT_FILE, "refused 24 Outside point 1", 1),
        ("project 0 0 0 3276.8 -1 0", EIGHT_FILE, "refused 24 Outside point 2", 1),
        ("project 0 0 0 0 0 -0.1", EIGHT_FILE, "refused 26 BadBox", 1),
        # 8,192 columns, in one row more than there may be.
        (f"project {FACE} 0 -2457.7 -2457.6 0", EMPTY, "refused 38 WideGrid count 67117056", 1),
        ("project 9999 0 0 0 0 0", FLOAT, "refused 11 FloatTree", 3),
        ("vrml", FLOAT, "refused 11 FloatTree", 3),
        ("vrml --max-bytes 60", WHOLE_MAP, "", 4),
        ("project 0 0 0 0 0 x", EIGHT_FILE, "", 2),
    ],
    "The first fault of a file is named": [
        ("inspect", FLOAT + b"id OcTree\nsize 17\nres 0.1\ndata\n", "refused 11 FloatTree", 3),
        ("inspect", short_bt(17, DOWN + "0200", "1e-05"), "refused 14 BadField res", 3),
        ("inspect", head("id OcTree", "size 5", "size 17", "res 0.1") + data(DOWN + "0200"),
         "res 0.1 / size 17 / records 16 / free 0 / occupied 1 / canonical yes", 0),
        ("inspect", head("id OcTree", "size 17", "size 5", "res 0.1") + data(DOWN + "0200"),
         "refused 19 SizeMismatch said 5 found 17", 3),
    ],
    "Each front of a header is no map's file, or has no data": [
        ("inspect", EIGHT_FILE[:length],
         "refused 10 NotOctomap" if length < 28 else "refused 13 MissingField data", 3)
        for length in range(137)
    ],
    "Each front of the data is cut off at its end": [
        ("inspect", EIGHT_FILE[:length], f"refused 17 Truncated at {length}", 3)
        for length in range(137, 167)
    ],
    "A build writes the file of the last map": [
        ("build 0.1", "", bt(0, ""), 0),
        ("build 0.1", "hit 0 0 0 lazy ; get 0 0 0 0 ; quit ; clear", VOXEL_FILE, 1),
        ("build 0.1", " ; ".join(f"add {corner} {850 * n}" for n, corner in enumerate(
            ["0 0 0", "0.1 0 0", "0 0.1 0", "0.1 0.1 0", "0 0 0.1", "0.1 0 0.1", "0 0.1 0.1"], 1))
         + " ; set 0.1 0.1 0.1 0", EIGHT_FILE, 0),
        ("build 0.1 --max-bytes 60",
         "box -3276.8 -3276.8 -3276.8 3276.7 3276.7 3276.7 miss ; hit", bt(9, "5555"), 1),
        ("build 0.1", "scan 0 0 0 1 0 0 0 all", bt(0, ""), 1),
    ],
    "A script is made of its numbers": [
        # The first number of seed 0 is 167951807 modulo 4001, less 2000, in millimetres.
        ("gen 0 1 0", "hit 0 0 0",
         "# octomap gen 0 1 0 / scan -0.17 -0.161 -0.962 1 0 0 -1 8 / end / quit", 0),
        ("gen 1 1 2", "hit 0 0 0",
         "# octomap gen 1 1 2 / scan 1.623 0.736 -0.802 1 0 0 -2 8 / p -4.77 -2.678 3.186 / "
         "p -2.145 2.778 -0.864 / end / quit", 0),
        ("gen 000000000000000007 000 100000", "hit 0 0 0", "# octomap gen 7 0 100000 / quit", 0),
        ("gen 999999999999999999 0 1", "hit 0 0 0", "# octomap gen 999999999999999999 0 1 / quit",
         0),
    ],
    # (as the model in tests/model gives them too)
    "A drill writes four lines": [
        ("drill 7 1000 0", "hit",
         "scans 1000 refused 0 / hits 0 frees 0 / groups 0 nodes 0 / bt 137", 0),
        ("drill 1 1 2", "hit",
         "scans 1 refused 0 / hits 2 frees 274 / groups 288 nodes 564 / bt 715", 0),
        ("drill 1 3 50", "hit",
         "scans 3 refused 0 / hits 150 frees 20648 / groups 17469 nodes 38133 / bt 35079", 0),
    ],
    "A line has 4,096 bytes at most, whatever it is": [
        ("session 0.1", b"hit 0 0 0" + 4088 * b" ", "refused 30 LongLine line 1", 1),
        ("session 0.1", b"# a comment" + 4096 * b" " + b"\nget 0 0 0 16",
         "refused 30 LongLine line 1 / unknown", 1),
        ("session 0.1", b"quit" + 4093 * b" " + b"\nhit 0 0 0\n", "refused 30 LongLine line 1 / ok",
         1),
        ("session 0.1", b"quit" + 4092 * b" " + b"\nhit 0 0 0\n", "", 0),
        ("session 0.1",
         b"scan 0 0 0 1 0 0 0 all\np 1 0 0" + 4090 * b" " + b"\nhit\nend\nhit 0 0 0\n",
         "refused 30 LongLine line 2 / ok", 1),
    ],
}

# The files of a folder. There is no file `c` in it.
FILES = {
    "A": EIGHT_FILE,
    "B": FREE_FILE,
    # All is occupied, at voxels of half the edge; the node data isn't the shortest.
    "fine": short_bt(17, "ABAA" + "AAAA", "0.05"),
    "short": short_bt(9, "AA"),
    "float": FLOAT,
    "empty": b"",
}
PAIRS = [f"{one} {other}" for one in ("unknown", "free", "occupied")
         for other in ("unknown", "free", "occupied")]


def table_of(*counts):
    return " / ".join(f"{pair} {count}" for pair, count in zip(PAIRS, counts))


# Words of a task over two of these files, what is written, and the status.
PAIRED = {
    "Two files are merged": [
        ("merge least B A", TWO_CLASSES, 0),
        ("merge first A A", EIGHT_FILE, 0),
        ("merge least fine fine", bt(9, "AAAA", "0.05"), 0),
        ("merge greatest fine fine", bt(9, "AAAA", "0.05"), 0),
    ],
    "Classes are counted by pairs": [
        ("table B A 0 0 0 0.2 0 0", table_of(1, 0, 1, 0, 0, 1, 0, 0, 0), 0),
        ("table fine fine 1 1 1 1 1 1", table_of(0, 0, 0, 0, 0, 0, 0, 0, 1), 0),
    ],
    "The first refusal is the reply": [
        ("merge first c d", "first refused 33 NoFile", 1),
        ("merge least float short", "first refused 11 FloatTree", 1),
        ("merge least B short", "second refused 17 Truncated at 60", 1),
        ("merge least short short", "first refused 17 Truncated at 60", 1),
        ("merge greatest empty A", "first refused 10 NotOctomap", 1),
        ("merge greatest A fine", "refused 35 OtherResolution file 50000000 session 100000000", 1),
        ("merge greatest fine A", "refused 35 OtherResolution file 100000000 session 50000000", 1),
        ("table c A 9999 0 0 0 0 0", "first refused 33 NoFile", 1),
        ("table A float 9999 0 0 0 0 0", "second refused 11 FloatTree", 1),
        ("table A fine 9999 0 0 0 0 0",
         "refused 35 OtherResolution file 50000000 session 100000000", 1),
        ("table A B 9999 0 0 9999 0 0", "refused 24 Outside point 1", 1),
        ("table A B 1 0 0 3276.8 0 0", "refused 24 Outside point 2", 1),
        ("table A B 0 0 0.1 0 0 0", "refused 26 BadBox", 1),
    ],
    "Other words ask for nothing": [
        ("merge greatest A", "", 2),
        ("merge greatest A B B", "", 2),
        ("merge Greatest A B", "", 2),
        ("merge A B least", "", 2),
        ("merge least A ../B", "", 2),
        ("table A B 0 0 0 0 0", "", 2),
        ("table A .B 0 0 0 0 0 0", "", 2),
        ("table A B 0 0 0 0 0 0 --max-bytes 9", "", 2),
    ],
}

# A scan from the middle of voxel 0 along x, without its range, and its points.
ROW, ROW_ENDS = "scan 0.05 0.05 0.05 1 0 0 0", "p 0.2 0 0 ; p 0.4 0 0 ; end"


def snapped_corner():
    """The node of a child of the map of which the voxel in the lowest corner alone was hit."""
    node = value(850)
    for _ in range(15):
        node = parted({0: node})
    return node


# Options of such a session, scripts of edits, scans and files of a map, and their replies.
WIDE = " ; ".join(f"p 12 {y} {z}" for y in range(-12, 13, 6) for z in range(-12, 13, 6))
HIT_EIGHT = [f"hit {x} {y} {z}" for x in (0, 0.1) for y in (0, 0.1) for z in (0, 0.1)]
MAPS = {
    "A box changes each of its voxels, and the whole map is one node": [
        ("--max-groups 121", "box -0.1 -0.1 -0.1 0 0 0 hit ; get -0.1 -0.1 -0.1 16 ; "
         "get 0 0 0 16 ; get 0.1 0 0 16 ; "
         "box -3276.8 -3276.8 -3276.8 3276.799999999 3276.799999999 3276.799999999 miss ; "
         "get 0 0 0 16 ; get 0.1 0 0 16 ; "
         "box -3276.8 -3276.8 -3276.8 3276.799999999 3276.799999999 3276.799999999 set 70 ; counts",
         "ok / known 850 occupied / known 850 occupied / unknown / ok / known 450 occupied / "
         "known -400 free / ok / groups 0 nodes 1"),
    ],
    "A full map refuses a box by what it needs, and stays": [
        ("--max-groups 121", "box -0.1 -0.1 -0.1 0 0 0 hit ; box -0.1 -0.1 -0.1 0 0 0 hit ; "
         "box 0.05 0.05 0.05 0 0 0 hit ; box 0 0 0.1 0 0 0 hit ; box 0 0.1 0 0.9 0 0.9 hit ; "
         "box 0.1 0 0 0 0.9 0.9 hit ; get -0.1 -0.1 -0.1 16 ; get 0 0 0 16 ; get 0.1 0 0 16",
         "ok / refused 23 Full groups 121 need 121 / refused 23 Full groups 121 need 16 / "
         "refused 26 BadBox / refused 26 BadBox / refused 26 BadBox / known 850 occupied / "
         "known 850 occupied / unknown"),
    ],
    "Counts give back the groups that the values don't need, and leave a map stale": [
        ("--max-groups 32", " ; ".join(f"{hit} lazy" for hit in HIT_EIGHT)
         + " ; counts ; get 0 0 0 15 ; hit -0.1 -0.1 -0.1 ; counts ; forget -0.1 -0.1 -0.1",
         8 * "ok / " + "groups 15 nodes 16 / refused 22 Stale / ok / groups 30 nodes 32 / "
         "refused 23 Full groups 30 need 16"),
    ],
    "An edit is refused as full by the values that the map has": [
        (f"--max-groups {groups}",
         "hit 0 0 0 ; hit 0 0 0 ; hit -0.1 -0.1 -0.1 lazy ; get 0 0 0 0 ; "
         "get -0.1 -0.1 -0.1 16 ; counts",
         "ok / refused 23 Full groups 16 need 16 / refused 23 Full groups 16 need 16 / "
         "known 850 occupied / unknown / groups 16 nodes 17") for groups in (16, 31)
    ] + [
        ("--max-groups 32", " ; ".join(HIT_EIGHT) + " ; hit 0 0 0 ; counts",
         9 * "ok / " + "groups 16 nodes 24"),
    ],
    "A second scan goes on from the values of the first, and a lazy one makes the map stale": [
        ("", f"{ROW} all ; {ROW_ENDS} ; get 0.4 0 0 15 ; {ROW} all lazy ; {ROW_ENDS} ; "
         "get 0.4 0 0 16 ; get 0.4 0 0 15",
         "ok hits 2 frees 3 / known 850 occupied / ok hits 2 frees 3 / known 1700 occupied / "
         "refused 22 Stale"),
    ],
    "A refused lazy scan leaves a map as it was, and not stale": [
        ("--max-groups 16 --max-cells 3", f"{ROW} all lazy ; {ROW_ENDS} ; "
         f"{ROW} all lazy ; p 0.2 0 0 ; p 3276.8 0 0 ; end ; "
         "scan 3276.8 0 0 1 0 0 0 all lazy ; end ; get 0.05 0.05 0.05 0",
         "refused 8 TooManyCells index 1 cells 8 / refused 7 PointOutside index 1 / "
         "refused 6 OriginOutside / unknown"),
        ("--max-groups 16", f"{ROW} all lazy ; {ROW_ENDS} ; get 0.05 0.05 0.05 0",
         "refused 23 Full groups 0 need 19 / unknown"),
    ],
    # (the numbers are those that the model in tests/model gives, too)
    "A scan of 25 beams to a face of a cube of 24 m needs thousands of groups": [
        ("--max-groups 1024 --max-cells 100000", f"{ROW} all ; {WIDE} ; end",
         "refused 23 Full groups 0 need 4780"),
        ("--max-groups 100000 --max-cells 100000", f"{ROW} all ; {WIDE} ; end",
         "ok hits 25 frees 5079"),
    ],
    "The file of five voxels gives their classes, and an empty one none": [
        ("--max-groups 19", "hit -0.1 -0.1 -0.1 lazy ; load one ; get -0.1 -0.1 -0.1 16 ; "
         "get 0 0 0 0 ; load five ; list 0 0 0 0.4 0 0 16 ; load empty ; get 0.2 0 0 0",
         "ok / loaded 17 / unknown / known 3500 occupied / loaded 24 / "
         "block 32768 32768 32768 -2000 free / block 32769 32768 32768 -2000 free / "
         "block 32770 32768 32768 3500 occupied / block 32771 32768 32768 -2000 free / "
         "block 32772 32768 32768 3500 occupied / end 5 / loaded 0 / unknown"),
    ],
    "A refused load leaves a map, and leaves it stale": [
        ("--max-groups 18", "hit -0.1 -0.1 -0.1 lazy ; load coarse ; load five ; "
         "get -0.1 -0.1 -0.1 15 ; get -0.1 -0.1 -0.1 16",
         "ok / refused 35 OtherResolution file 200000000 session 100000000 / "
         "refused 23 Full groups 0 need 19 / refused 22 Stale / known 850 occupied"),
    ],
    "A refused restore leaves a map, and leaves it stale": [
        ("--max-groups 16", "hit 0 0 0 lazy ; restore two ; restore short ; get 0 0 0 15 ; "
         "get 0 0 0 16", "ok / refused 23 Full groups 0 need 31 / refused 17 Truncated at 53 / "
         "refused 22 Stale / known 850 occupied"),
    ],
    "A restore ends staleness": [
        ("--max-groups 16", "hit -0.1 -0.1 -0.1 lazy ; restore hit ; get -0.1 -0.1 -0.1 16 ; "
         "get 0 0 0 0", "ok / restored groups 16 / unknown / known 850 occupied"),
    ],
    "Of two files of a name the one that was saved last stays": [
        ("", "hit 1 0 0 ; save five ; clear ; hit 0 0 0 lazy ; save five ; load five ; get 0 0 0 0",
         "ok / saved 169 / ok / ok / saved 169 / loaded 17 / known 3500 occupied"),
    ],
    "A load that is cut short leaves the map": [
        ("", "load one ; load cut ; get 0 0 0 16",
         "loaded 17 / refused 17 Truncated at 61 / known 3500 occupied"),
    ],
}
OWN_ODDS = (500, -300, -1000, 3000, 1)
WITH_BOX = snap2(value(70), OWN_ODDS, box="000100020003" + "010000020003")
MAP_FILES = {
    "one": VOXEL_FILE, "five": SCAN_FILE, "empty": EMPTY,
    "coarse": short_bt(17, DOWN + "0200", "0.2"), "cut": short_bt(16, "00"),
    "hit": snap1(down(value(850), 16)), "short": WITH_BOX[:53],
    "two": snap1(parted({6: snapped_corner(), 7: snapped_corner()})),
}

# The five numbers of log-odds, as options and in a snapshot, each of which alone differs from that
# of a session that names none.
OTHERS = [("--hit 500", (500, -400, -2000, 3500, 0)), ("--miss -300", (850, -300, -2000, 3500, 0)),
          ("--min -1000", (850, -400, -1000, 3500, 0)), ("--max 3000", (850, -400, -2000, 3000, 0)),
          ("--thr 100", (850, -400, -2000, 3500, 100))]

SNAPSHOTS = [
    Row("The box that stood is back with a snapshot, and the mark and staleness are gone",
        "session 0.1",
        "limit 0.1 0 0 0.1 0 0 ; snapshot a ; nolimit ; track ; hit 0 0 0 lazy ; restore a ; "
        "get 0 0 0 0 ; changes ; scan 0.05 0.05 0.05 1 0 0 0 all ; p 0.2 0 0 ; end",
        "ok / saved 50 / ok / ok / ok / restored groups 0 / unknown / refused 28 NotTracked / "
        "ok hits 0 frees 1", left={"a": snap2(b"\0", box=2 * "800180008000")}),
    Row("A refused restore does nothing", "session 0.1",
        "hit 0 0 0 ; save m ; restore m ; restore n ; get 0 0 0 16",
        "ok / saved 169 / refused 20 BadMagic / refused 33 NoFile / known 850 occupied",
        left={"m": VOXEL_FILE}),
    Row("Values are kept that no file of classes has, of stale maps too", "session 0.1",
        "set 0 0 0 -7 ; set 0.1 0 0 3 lazy ; snapshot a ; maxlik ; restore a ; get 0 0 0 16 ; "
        "get 0 0 0 15 ; maxlik ; get 0 0 0 15",
        "ok / ok / saved 174 / ok / restored groups 16 / known -7 free / known 3 occupied / ok / "
        "known 3500 occupied",
        left={"a": snap2(down(parted({0: value(-7), 1: value(3)}), 15))}),
    Row("The unknown world has a snapshot", "session 0.1", "snapshot e ; restore e",
        "saved 38 / restored groups 0", left={"e": EMPTY_SNAP}),
    Row("A snapshot of version 1 leaves the log-odds, and they are written",
        "session 0.1 --hit 500",
        "restore a ; hit 0 0 0 ; snapshot b", "restored groups 16 / ok / saved 170",
        files={"a": snap1(down(value(850), 16))},
        left={"b": snap2(down(value(1350), 16), (500, -400, -2000, 3500, 0))}),
    Row("A snapshot brings its log-odds, which stay", "session 0.1 --hit 500 --max 1000 --thr 900",
        "hit 1 0 0 ; get 1 0 0 16 ; restore a ; hit 0 0 0 ; get 0 0 0 16 ; get 1 0 0 16 ; clear ; "
        "hit 0 0 0 ; get 0 0 0 16",
        "ok / known 500 free / restored groups 16 / ok / known 1700 occupied / unknown / ok / ok / "
        "known 850 occupied", files={"a": VOXEL_SNAP}),
]

ROWS = [
    Row(rule, "session 0.1", given, wanted)
    for rule, cases in SCRIPTS.items() for given, wanted in cases
] + [
    Row(rule, f"session 0.1 {options}", given, wanted, status)
    for rule, cases in LIMITS.items() for options, given, wanted, status in cases
] + [
    Row(rule, words, given, wanted, status)
    for rule, cases in TASKS.items() for words, given, wanted, status in cases
] + [
    Row(rule, words, "hit 0 0 0", wanted, status, files=FILES)
    for rule, cases in PAIRED.items() for words, wanted, status in cases
] + [
    Row(rule, f"session 0.1 {options}", given, wanted, files=MAP_FILES,
        left={"five": VOXEL_FILE} if "save five" in given else {})
    for rule, cases in MAPS.items() for options, given, wanted in cases
] + [
    Row("A snapshot is that which was restored", "session 0.1", "restore s ; snapshot t",
        f"restored groups 0 / saved {len(file)}", files={"s": file}, left={"t": file})
    for file in (WITH_BOX, snap2(value(70), OWN_ODDS))
] + [
    Row("A restore brings each number of the log-odds", f"session 0.1 {option}",
        "snapshot b ; restore a ; snapshot c ; restore b ; snapshot d",
        "saved 38 / restored groups 0 / saved 38 / restored groups 0 / saved 38",
        files={"a": EMPTY_SNAP},
        left={"b": snap2(b"\0", odds), "c": EMPTY_SNAP, "d": snap2(b"\0", odds)})
    for option, odds in OTHERS
] + [
    Row("An empty word is none", words, "hit 0 0 0", "", 2)
    for words in (["session", "0.1", "--hit", ""], ["gen", "", "0", "0"])
] + SNAPSHOTS
