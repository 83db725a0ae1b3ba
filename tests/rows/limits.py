"""Limits and defaults as numbers: at each end, and one beyond."""
from row import DOWN, Built, Front, Holes, Row, bt, head, short_bt
from worked import BOX

VOXEL_FILE = bt(17, DOWN + "0200")
EMPTY_FILE = short_bt(0, "")
POINTS = "0 0 0 0 0 0"
USAGE, BAD_FILE, TOO_LONG = 2, 3, 4
# What each task over a file answers to a file without data.
OVER_A_FILE = {
    "convert": bt(0, ""),
    "inspect": "res 0.1 / size 0 / records 0 / free 0 / occupied 0 / canonical yes",
    f"frontier {POINTS}": "end 0",
    f"project {POINTS}": b"P5\n1 1\n255\n\xCD",
    "vrml": "#VRML V2.0 utf8",
}

# 101 by 9901 is one more than a million. A slab of so many voxels has unknown ones above it all.
MILLION, MILLION_AND_ONE = "0 0 0 99.9 99.9 0", "0 0 0 10 990 0"
MILLION_CUBE = "0 0 0 9.9 9.9 9.9"


def lines(texts):
    """Texts, each as a line."""
    return "".join(text + "\n" for text in texts).encode()


def known_blocks():
    """What a list says of the voxels of a cube of 100 by 100 by 100, all with 850."""
    keys = range(32768, 32868)
    return lines([f"block {x} {y} {z} 850 occupied" for x in keys for y in keys for z in keys]
                 + ["end 1000000"])


def frontiers():
    """The voxels of a slab of 1000 by 1000, as a frontier."""
    keys = range(32768, 33768)
    return lines([f"frontier {x} {y} 32768" for x in keys for y in keys] + ["end 1000000"])


def boxes():
    """The voxels of that slab as boxes, by their Morton code: x has the bits 0, 2, 4 and so on."""
    spread = [sum((n >> bit & 1) << 2 * bit for bit in range(10)) for n in range(1000)]
    middles = [f"{n // 10}.{n % 10}5" for n in range(1000)]
    places = sorted((spread[x] + 2 * spread[y], x, y) for x in range(1000) for y in range(1000))
    return lines(["#VRML V2.0 utf8"] + [BOX % (f"{middles[x]} {middles[y]} 0.05", "0.1 0.1 0.1")
                                        for _, x, y in places])


def session(rule, options, script, answer):
    return Row(rule, f"session 0.1 {options}", script, answer)


DEFAULTS = [
    session("A hit is 850 where it isn't given", "--miss -1 --min -1 --max 900", "hit 0 0 0 ; "
            "get 0 0 0 16", "ok / known 850 occupied"),
    session("A miss is -400", "--hit 1 --min -500 --max 1", "miss 0 0 0 ; get 0 0 0 16",
            "ok / known -400 free"),
    session("The smallest value is -2000", "--hit 1 --miss -1000000 --max 1",
            "miss 0 0 0 ; get 0 0 0 16", "ok / known -2000 free"),
    session("The largest value is 3500", "--hit 1000000 --miss -1 --min -1",
            "hit 0 0 0 ; get 0 0 0 16", "ok / known 3500 occupied"),
    session("The threshold is 0", "--hit 7 --miss -7 --min -70 --max 70",
            "set 0 0 0 0 ; get 0 0 0 16 ; set 0 0 0 -1 ; get 0 0 0 16",
            "ok / known 0 occupied / ok / known -1 free"),
    # A wall of 4096 by 12286 voxels cuts 2048 * 6143 blocks of depth 15, 1024 * 3072 of depth 14,
    # and so on: 2^24 - 2044 in all. A line of 2038 voxels has 1019 + 510 + 255 + 128 + 64 + 32 +
    # 16 + 8 + 4 + 2 + 1 and five times 1 groups, which is 2044; one of 2039 has one more.
    session("The map may have 2^24 groups", "", "box 0 0 0 203.7 0 0 hit ; "
            "box 0 0 0 409.5 1228.5 0 forget", "ok / ok"),
    session("The map may not have 2^24 groups and one", "", "box 0 0 0 203.8 0 0 hit ; "
            "box 0 0 0 409.5 1228.5 0 forget", "ok / refused 23 Full groups 2045 need 16775172"),
    session("The beams of a scan may meet 2^26 voxels: 1024 beams across the map", "",
            "scan -3276.8 0 0 1 0 0 0 all" + 1024 * " ; p 6553.5 0 0" + " ; end",
            "ok hits 1 frees 65535"),
    session("The beams of a scan may not meet 2^26 voxels and one", "",
            "scan -3276.8 0 0 1 0 0 0 all" + 1024 * " ; p 6553.5 0 0" + " ; p 0 0 0 ; end",
            "refused 8 TooManyCells index 1024 cells 67108865"),
    Row("A script may have more bytes than a file", "session 0.1",
        Holes(b"hit 0 0 0\n", 2 ** 26 + 1), "ok / refused 30 LongLine line 2"),
] + [
    Row("A file may have 2^26 bytes", task, Holes(EMPTY_FILE, 2 ** 26),
        "refused 18 TrailingBytes at 59", BAD_FILE) for task in OVER_A_FILE
] + [
    Row("A file may not have 2^26 bytes and one", task, Holes(EMPTY_FILE, 2 ** 26 + 1),
        "", TOO_LONG) for task in OVER_A_FILE
]

# Options with the numbers at both ends of their range, and those beyond.
SOUND = [
    "--hit 1", "--hit 1000000", "--hit 0000850", "--miss -1", "--miss -1000000", "--miss -0000400",
    "--min 0 --thr 1", "--min -0 --thr 1", "--min -1000000", "--max 0", "--max -0",
    "--max 1000000", "--thr -1999", "--thr 3500", "--thr -0", "--max 1000000 --thr 1000000",
    "--min -1000000 --thr -999999", "--min -2 --max 5 --thr 5", "--min -2 --max 5 --thr -1",
    "--max-groups 16", "--max-groups 67108864", "--max-groups 000000000000000016",
    "--max-cells 1", "--max-cells 134217728", "--max-cells 000000000000000001",
    "--max-bytes 0", "--max-bytes 1099511627776", "--max-bytes 000000000000000000",
    "--thr 0 --max 3500 --min -2000 --miss -400 --hit 850 --max-bytes 0 --max-cells 1 "
    "--max-groups 16",
]
UNSOUND = [
    "--hit 0", "--hit -0", "--hit -1", "--hit 1000001", "--hit 00000850", "--hit +850",
    "--hit 8.5", "--hit", "--hit 850 --hit 850", "--hit=850", "--hi 850", "-hit 850",
    "--miss 0", "--miss 1", "--miss -1000001", "--miss -00000400", "--min 1", "--min 0",
    "--min -1000001", "--max -1", "--max -1 --thr -1", "--max 1000001", "--thr -2000",
    "--thr 3501", "--min -2 --max 5 --thr 6", "--min -2 --max 5 --thr -2",
    "--min -1000000 --thr -1000000", "--max 1000000 --thr 1000001",
    "--max-groups 15", "--max-groups 67108865", "--max-groups 0000000000000000016",
    "--max-groups -16", "--max-cells 0", "--max-cells 134217729", "--max-cells -1",
    "--max-cells 0000000000000000001", "--max-bytes 1099511627777", "--max-bytes -1",
    "--max-bytes -0", "--max-bytes 0000000000000000000", "--max-bytes", "--help", "--version",
    "--", "-- --hit 1", "more", "--max-files 1", "0.1", "--hits 850", "--max-groups x",
    "--max-cell 16", "--hit 850 --thr 0 --hit 1", "--max-bytes 0000000000000000010",
    "--max-bytes ten",
]
SOUND_RES = ["0.0001", "0.000100000", "100", "0000100", "100.000000000", "0.1", "99.999999999"]
UNSOUND_RES = ["0.000099999", "0.00009", "100.000000001", "00000100", "0.1000000000", "-0.1", "0",
               "-0", ".1", "1.", "1e-1", "+1", "1,0", "RES"]

# What a hit of an unknown voxel makes of it.
HITS = {
    "--hit 1000000 --max 1000000": "1000000 occupied",
    "--hit 0000001": "1 occupied",
    "--thr 851 --max-bytes 1099511627776": "850 free",
    "--max 0": "0 occupied",
    "--max 3 --thr 3 --hit 7 --min 0 --miss -1000000": "3 occupied",
    "--min -1000000 --thr -999999": "850 occupied",
    "--max-groups 16 --max-cells 1": "850 occupied",
    "--max-cells 134217728": "850 occupied",
    "--max-groups 000000000067108864 --max-bytes 23": "850 occupied",
}

WORDS = [
    session("Options choose the model", options, "hit 0 0 0 ; get 0 0 0 16", f"ok / known {known}")
    for options, known in HITS.items()
] + [
    Row("An option has its whole range, and log-odds are judged together", f"{task} 0.1 {options}",
        "", bt(0, "") if task == "build" else "", 0)
    for options in SOUND for task in ("session", "build")
] + [
    Row("An option has no number beyond its range, no other form, and stands once",
        f"{task} 0.1 {options}", "hit 0 0 0", "", USAGE)
    for options in UNSOUND for task in ("session", "build")
] + [
    Row("A resolution is from 0.0001 m to 100 m", f"session {res}", "hit 0 0 0", "ok")
    for res in SOUND_RES
] + [
    Row("A resolution isn't below or above, nor of another form",
        f"session {res}", "hit 0 0 0", "", USAGE)
    for res in UNSOUND_RES
] + [
    Row("A task over a file takes at most 2^32 bytes", f"{task} --max-bytes 4294967296", EMPTY_FILE,
        answer) for task, answer in OVER_A_FILE.items()
] + [
    Row("A task over a file takes no more, and the number is one to eighteen digits",
        f"{task} --max-bytes {number}", EMPTY_FILE, "", USAGE)
    for task in OVER_A_FILE for number in ("4294967297", "-1", "", "0000000000000000059", "59 59")
] + [
    Row("A task over a file may be allowed no byte at all",
        f"{task} --max-bytes 0", b"", "refused 10 NotOctomap",
        BAD_FILE) for task in OVER_A_FILE
] + [
    Row("A file of exactly --max-bytes bytes is read", f"{task} --max-bytes 000000000000000059",
        EMPTY_FILE, answer) for task, answer in OVER_A_FILE.items()
] + [
    Row("A file of one byte more than --max-bytes isn't read",
        f"{task} --max-bytes 58", EMPTY_FILE, "", TOO_LONG)
    for task in OVER_A_FILE
] + [
    Row("A task has its words and no others", words, "hit 0 0 0", "", USAGE)
    for words in [
        "", "session", "build", "fly", "Session 0.1", "sessions 0.1", "session --hit 850 0.1",
        "convert 0.1", "convert --hit 1", "inspect --max-bytes 1 --max-bytes 1", "gen", "gen 0 0",
        "gen 0 0 0 0", "gen 0 0.5 0", "drill 0 0", "frontier 0 0 0 0 0",
        "frontier 0 0 0 0 0 0 0", "frontier 0 0 0 0 0 x",
        "project --max-bytes 1 0 0 0 0 0 0", "project 0 0 0 0 0", "vrml 0", "merge A B",
        "merge most A B", "merge least A", "merge least A B C", "merge least A .b",
        "merge least A -b", "merge least A " + 65 * "b", "table A B 0 0 0 0 0",
        "table A B 0 0 0 0 0 00000000", "table A b/c 0 0 0 0 0 0", "merge least A B --max-bytes 1",
        "table A B 0 0 0 0 0 0 --max-bytes 1",
    ]
] + [
    Row("A seed has up to eighteen digits", "gen 999999999999999999 0 0", "",
        "# octomap gen 999999999999999999 0 0 / quit"),
    Row("A thousand scans may be made", "gen 0 1000 0", "",
        Front("# octomap gen 0 1000 0 / scan -0.17 ")),
    Row("100,000 points may be made, of no scan too", "gen 0 0 100000", "",
        "# octomap gen 0 0 100000 / quit"),
] + [
    Row("A number that makes scripts isn't beyond its range", f"{task} {numbers}", "", "", USAGE)
    for task in ("gen", "drill")
    for numbers in ("0 1001 0", "0 0 100001", "1000000000000000000 0 0", "-1 0 0", "0 -1 0",
                    "0 0 -1", "0 0000000000000000001 0", "x 0 0")
]

LINES = [
    Row("A line may have 4,096 bytes", "session 0.1", b"hit 0 0 0" + 4087 * b" " + b"\n", "ok"),
    Row("A line may not have 4,097 bytes, even where it is blank", "session 0.1",
        4097 * b" " + b"\n#" + 4096 * b"-" + b"\nhit 0 0 0" + 4088 * b"\t" + b"\nhit 0 0 0\n",
        "refused 30 LongLine line 1 / refused 30 LongLine line 2 / "
        "refused 30 LongLine line 3 / ok"),
    Row("A carriage return counts among a line's bytes", "session 0.1",
        b"hit 0 0 0" + 4086 * b" " + b"\r\nhit 0 0 0" + 4087 * b" " + b"\r\n",
        "ok / refused 30 LongLine line 2"),
    Row("A line that the input doesn't end is long as another is", "session 0.1", 4097 * b" ",
        "refused 30 LongLine line 1"),
    Row("A name has up to 64 bytes", "session 0.1", f"save {64 * 'n'} ; save {65 * 'n'}",
        "saved 136 / refused 29 Syntax line 2 column 6", left={64 * "n": bt(0, "")}),
    Row("A name begins with neither a point nor a dash, and has no slash", "session 0.1",
        "save .m ; save -m ; save a/m ; save m~ ; save _m-1.BT",
        "refused 29 Syntax line 1 column 6 / refused 29 Syntax line 2 column 6 / "
        "refused 29 Syntax line 3 column 6 / refused 29 Syntax line 4 column 6 / saved 136",
        left={"_m-1.BT": bt(0, "")}),
    Row("A number of a line is from -1000000 to 1000000, with one to seven digits", "session 0.1",
        "set 0 0 0 1000000 ; set 0 0 0 -1000000 ; set 0 0 0 1000001 ; set 0 0 0 -1000001 ; "
        "set 0 0 0 0000001 ; set 0 0 0 00000001 ; add 0 0 0 -0 ; add 0 0 0 1000001",
        "ok / ok / refused 29 Syntax line 3 column 11 / refused 29 Syntax line 4 column 11 / ok / "
        "refused 29 Syntax line 6 column 11 / ok / refused 29 Syntax line 8 column 11"),
    Row("A number of a quaternion is from -32768 to 32767", "session 0.1",
        "scan 0 0 0 -32768 32767 -32768 32767 all ; end ; scan 0 0 0 32768 0 0 0 all ; end ; "
        "scan 0 0 0 0 0 0 -32769 all ; end",
        "ok hits 0 frees 0 / refused 29 Syntax line 3 column 12 / "
        "refused 29 Syntax line 5 column 18"),
    Row("Log-odds of a scan are from 1 to 1000000, and from -1000000 to -1", "session 0.1",
        "scan 0 0 0 1 0 0 0 all 1 -1 ; end ; scan 0 0 0 1 0 0 0 all 1000000 -1000000 lazy ; end ; "
        "scan 0 0 0 1 0 0 0 all 0 -1 ; end ; scan 0 0 0 1 0 0 0 all 1 0 ; end ; "
        "scan 0 0 0 1 0 0 0 all 1000001 -1 ; end ; scan 0 0 0 1 0 0 0 all 1 -1000001 ; end",
        "ok hits 0 frees 0 / ok hits 0 frees 0 / refused 29 Syntax line 5 column 24 / "
        "refused 29 Syntax line 7 column 26 / refused 29 Syntax line 9 column 24 / "
        "refused 29 Syntax line 11 column 26"),
    Row("A range isn't negative, but may be 0 with a sign", "session 0.1",
        "scan 0 0 0 1 0 0 0 0 ; end ; scan 0 0 0 1 0 0 0 -0 ; end ; "
        "scan 0 0 0 1 0 0 0 -0.000000001 ; end",
        "ok hits 0 frees 0 / ok hits 0 frees 0 / refused 29 Syntax line 5 column 20"),
    Row("A length has seven digits before its point and nine after it", "session 0.1",
        "hit 0000001.123456789 0 0 ; hit 00000001 0 0 ; hit 0 0.1234567890 0 ; hit 0 0 1. ; "
        "hit .5 0 0 ; hit - 0 0 ; hit +1 0 0 ; hit 1e0 0 0 ; hit -0 -0.0 0",
        "ok / refused 29 Syntax line 2 column 5 / refused 29 Syntax line 3 column 7 / "
        "refused 29 Syntax line 4 column 9 / refused 29 Syntax line 5 column 5 / "
        "refused 29 Syntax line 6 column 5 / refused 29 Syntax line 7 column 5 / "
        "refused 29 Syntax line 8 column 5 / ok"),
    Row("A depth has one to seven digits, and is at most 16", "session 0.1",
        "get 0 0 0 0000016 ; get 0 0 0 00000016 ; get 0 0 0 -1 ; get 0 0 0 9999999 ; get 0 0 0 0",
        "unknown / refused 29 Syntax line 2 column 11 / refused 29 Syntax line 3 column 11 / "
        "refused 25 BadDepth / unknown"),
    Row("The map has its lowest face and not its highest", "session 0.1",
        "hit -3276.8 3276.799999999 0 ; hit -3276.800000001 0 0 ; hit 0 3276.8 0 ; "
        "get -3276.8 3276.7 0 16 ; cast -3276.8 0 0 3276.7 0 0 ignore ; "
        "cast 0 0 0 0 0 3276.8 ; cast 0 0 3276.8 0 0 0",
        "ok / refused 24 Outside point 1 / refused 24 Outside point 1 / known 850 occupied / "
        "cast clear / refused 24 Outside point 2 / refused 24 Outside point 1"),
    Row("At 0.0001 m the map reaches from -3.2768 m", "session 0.0001",
        "hit -3.2768 0 0 ; hit -3.276800001 0 0 ; hit 3.276799999 0 0 ; hit 3.2768 0 0",
        "ok / refused 24 Outside point 1 / ok / refused 24 Outside point 1"),
    Row("At 100 m the map reaches from -3276800 m", "session 100",
        "hit -3276800 0 0 ; hit -3276800.000000001 0 0 ; hit 3276799.999999999 0 0 ; "
        "hit 3276800 0 0",
        "ok / refused 24 Outside point 1 / ok / refused 24 Outside point 1"),
    Row("The end of a beam and the place of its sensor lie in the map, by the same faces",
        "session 0.1",
        "scan 0 0 0 1 0 0 0 all ; p -3276.8 0 0 ; end ; scan 0 0 0 1 0 0 0 all ; p 1 0 0 ; "
        "p -3276.800000001 0 0 ; end ; scan 3276.8 0 0 1 0 0 0 all ; end ; "
        "scan 3276.7 0 0 1 0 0 0 0.1 ; p 1 0 0 ; end",
        "ok hits 1 frees 32768 / refused 7 PointOutside index 1 / refused 6 OriginOutside / "
        "refused 7 PointOutside index 0"),
]

LARGE = [
    Row("A million blocks are listed, all of them unknown", "session 0.1",
        f"list {MILLION_CUBE} 16 ; list {MILLION} 16", "end 0 / end 0"),
    Row("A million known blocks are listed", "session 0.1",
        f"box {MILLION_CUBE} hit ; list {MILLION_CUBE} 16", lambda: b"ok\n" + known_blocks()),
    Row("A million blocks and one aren't listed", "session 0.1", f"list {MILLION_AND_ONE} 16",
        "refused 9 TooManyBlocks count 1000001"),
    Row("128 blocks on each axis are too many", "session 0.1", "list 0 0 0 12.7 12.7 12.7 16",
        "refused 9 TooManyBlocks count 2097152"),
    Row("A box of a million voxels may be edited under a mark", "session 0.1",
        f"track ; box {MILLION_CUBE} hit ; box {MILLION} forget", "ok / ok / ok"),
    Row("A box of a million and one may not, whether the edit changes anything or not",
        "session 0.1", f"track ; box {MILLION_AND_ONE} hit ; box {MILLION_AND_ONE} forget ; "
        f"untrack ; box {MILLION_AND_ONE} hit",
        "ok / refused 27 WideWhileTracked count 1000001 / "
        "refused 27 WideWhileTracked count 1000001 / ok / ok"),
    Row("128 voxels on each axis are too many under a mark", "session 0.1",
        "track ; box 0 0 0 12.7 12.7 12.7 set 850",
        "ok / refused 27 WideWhileTracked count 2097152"),
    Row("A million frontier voxels are listed", f"frontier {MILLION}",
        Built(f"box {MILLION} set -400"), frontiers),
    Row("A million frontier voxels and one aren't listed", f"frontier {MILLION_AND_ONE}",
        Built(f"box {MILLION_AND_ONE} set -400"), "refused 37 TooManyFrontiers"),
    Row("A million boxes are written", "vrml", Built(f"box {MILLION} hit"), boxes),
    Row("A million boxes and one aren't written", "vrml", Built(f"box {MILLION_AND_ONE} hit"),
        "refused 39 TooManyBoxes count 1000001"),
    Row("A picture has up to 2^26 columns", "project 0 0 0 819.1 819.1 0", VOXEL_FILE,
        lambda: b"P5\n8192 8192\n255\n" + 8191 * 8192 * b"\xCD" + b"\0" + 8191 * b"\xCD"),
    # 8065 by 8321 is 2^26 and one.
    Row("A picture doesn't have 2^26 columns and one", "project 0 0 0 806.4 832 0", VOXEL_FILE,
        "refused 38 WideGrid count 67108865"),
    Row("The height of a band isn't limited", "project 0 0 -3276.8 0 0 3276.7", VOXEL_FILE,
        b"P5\n1 1\n255\n\0"),
    Row("A file of 2^30 bytes is read", "session 0.1", "load m",
        "refused 18 TrailingBytes at 59", files={"m": Holes(EMPTY_FILE, 2 ** 30)}),
    Row("A file of 2^30 bytes and one isn't read", "session 0.1", "load m ; restore m",
        "refused 34 FileTooLarge / refused 34 FileTooLarge",
        files={"m": Holes(EMPTY_FILE, 2 ** 30 + 1)}),
    Row("A task over two files doesn't read one of 2^30 bytes and one", "merge least A m", "",
        "second refused 34 FileTooLarge", 1,
        files={"A": EMPTY_FILE, "m": Holes(EMPTY_FILE, 2 ** 30 + 1)}),
    Row("A header may have 65,536 bytes, the data line's end among them", "inspect",
        lambda: head("id OcTree", "size 0", "res 0.1", (65536 - 60) * "#"),
        "res 0.1 / size 0 / records 0 / free 0 / occupied 0 / canonical yes"),
    Row("A header may not have 65,537 bytes", "inspect",
        lambda: head("id OcTree", "size 0", "res 0.1", (65537 - 60) * "#"),
        "refused 15 HeaderTooLong", BAD_FILE),
]

ROWS = DEFAULTS + WORDS + LINES + LARGE
