"""Faults of files, and of lines: each alone, and next to the one that is judged after it."""
from row import DOWN, Row, bt, data, down, head, parted, short_bt, snap1, snap2, value

BAD_FILE = 3
FIRST, FLOAT = b"# Octomap OcTree binary file", b"# Octomap OcTree file"
VOXEL = data(DOWN + "0200")
SOUND = "res 0.1 / size 17 / records 16 / free 0 / occupied 1 / canonical yes"
VOXEL_FILE, EIGHT_FILE = bt(17, DOWN + "0200"), bt(16, "00C0" + 13 * "0300" + "0200")


def fault(rule, file, answer):
    """A file that is none, and the one line that says why."""
    return Row(rule, "inspect", file, f"refused {answer}", BAD_FILE)


def headed(rule, header, answer):
    """The same of a header of these lines, with the data of one voxel."""
    lines = [line for line in header.split(" / ") if line]
    return fault(rule, head(*lines) + VOXEL, answer)


def accepted(rule, header):
    """A header whose file is that of one voxel."""
    return Row(rule, "inspect", header + VOXEL, SOUND)


BEGINNINGS = [
    fault("An empty file is none", b"", "10 NotOctomap"),
    fault("A file of floating-point values is named as one", FLOAT + b"\nid OcTree\n",
          "11 FloatTree"),
    fault("A file of floating-point values needs no end of its first line", FLOAT, "11 FloatTree"),
    fault("What follows that in its first line means nothing", FLOAT + b"s\n", "11 FloatTree"),
    fault("A file of floating-point values is named before its missing data line",
          (FLOAT + b"\n").ljust(65536, b"#"),
          "11 FloatTree"),
    fault("A file that begins otherwise is none, however long its header is",
          b"#Octomap OcTree binary file\n".ljust(65536, b"#"), "10 NotOctomap"),
    fault("The first line alone has no data line", FIRST, "13 MissingField data"),
    fault("A byte less is no first line", FIRST[:-1], "10 NotOctomap"),
    fault("The data line isn't the first one", FIRST + b" data\n" + VOXEL, "13 MissingField data"),
    fault("The data line ends with a line feed", FIRST + b"\nid OcTree\nsize 0\nres 0.1\ndata",
          "13 MissingField data"),
    fault("Of 65,535 bytes without a data line it is missing", (FIRST + b"\n#").ljust(65535, b"-"),
          "13 MissingField data"),
    fault("Of 65,536 bytes the header is too long", (FIRST + b"\n#").ljust(65536, b"-"),
          "15 HeaderTooLong"),
    fault("A header is too long before fields are missing", (FIRST + b"\n").ljust(70000, b"\n"),
          "15 HeaderTooLong"),
    fault("A data line that ends with byte 65,537 comes too late",
          (FIRST + b"\n#").ljust(65531, b"-") + b"\ndata\n", "15 HeaderTooLong"),
    fault("A data line is missing before fields are", FIRST + b"\n", "13 MissingField data"),
] + [
    fault("Each shorter front of a file has no data line, or no first line",
          EIGHT_FILE[:length], "10 NotOctomap" if length < 28 else "13 MissingField data")
    for length in (0, 1, 20, 27, 28, 29, 60, 135, 136)
] + [
    fault("Each shorter front with a header is truncated at its length", EIGHT_FILE[:length],
          f"17 Truncated at {length}") for length in (137, 138, 139, 150, 165, 166)
]

FIELDS = [
    headed("A missing id is told before a missing res", "", "13 MissingField id"),
    headed("A missing id is told before a bad res", "res x / size 17", "13 MissingField id"),
    headed("A wrong id is told before a missing res", "id Octree / size 17", "12 WrongId"),
    headed("A wrong id is told before a bad res", "id ColorOcTree / res x / size 17", "12 WrongId"),
    headed("An id without a value is a wrong one", "id / res 0.1 / size 17", "12 WrongId"),
    headed("A missing res is told before a missing size", "id OcTree", "13 MissingField res"),
    headed("A missing res is told before a bad size", "id OcTree / size x", "13 MissingField res"),
    headed("A bad res is told before a missing size", "id OcTree / res x", "14 BadField res"),
    headed("A bad res is told before a bad size", "size x / res x / id OcTree", "14 BadField res"),
    headed("A res without a value is a bad one", "id OcTree / res / size 17", "14 BadField res"),
    headed("A missing size is told before sound data", "id OcTree / res 0.1",
           "13 MissingField size"),
    headed("A size without a value is a bad one", "id OcTree / res 0.1 / size", "14 BadField size"),
    fault("A bad size is told before half a record", head("id OcTree", "res 0.1", "size x") + b"\0",
          "14 BadField size"),
    fault("A missing size is told before half a record", head("id OcTree", "res 0.1") + b"\0",
          "13 MissingField size"),
] + [
    headed("A res is a metres text from 0.0001 to 100", f"id OcTree / res {res} / size 17",
           "14 BadField res")
    for res in ("1e-05", "1e-1", "0.000099999", "100.000000001", "0", "-0.1", "00000100", ".1",
                "1.", "0.1000000000", "0,1")
] + [
    headed("A size is one to eighteen digits", f"id OcTree / res 0.1 / size {size}",
           "14 BadField size") for size in ("-17", "+17", "17.0", "x", "0000000000000000017")
] + [
    headed("No form of a word but its own is a field", f"{line} / res 0.1 / size 17",
           "13 MissingField id")
    for line in ("ID OcTree", "# id OcTree", "id: OcTree", "tid OcTree")
] + [
    headed("Of two lines res the last one counts", "id OcTree / res 0.1 / size 17 / res x",
           "14 BadField res"),
    headed("Of two lines id the last one counts",
           "id OcTree / id x / res 0.1 / size 17", "12 WrongId"),
    headed("Of two lines res the last one counts, where it has no value too",
           "id OcTree / res 0.1 / res / size 17",
           "14 BadField res"),
    headed("A field needs a blank before its value", "id OcTree / res0.1 / size 17",
           "13 MissingField res"),
    fault("A second carriage return stays, as part of the last word",
          FIRST + b"\nid OcTree\nres 0.1\r\r\nsize 17\ndata\n" + VOXEL, "14 BadField res"),
    fault("A carriage return within a line is no blank",
          FIRST + b"\nid\rOcTree\nres 0.1\nsize 17\ndata\n" + VOXEL, "13 MissingField id"),
    fault("A data line with two carriage returns isn't one",
          FIRST + b"\nid OcTree\nres 0.1\nsize 17\ndata\r\r\n"
          + VOXEL, "13 MissingField data"),
    fault("What stands before the first line feed is no field",
          FIRST + b" id OcTree\nres 0.1\nsize 17\ndata\n" + VOXEL, "13 MissingField id"),
    fault("A field behind the data line is none", FIRST + b"\nres 0.1\nsize 17\ndata\nid OcTree\n",
          "13 MissingField id"),
]

HEADERS = [
    accepted("Of two lines size and res the last ones count",
             head("res x", "size 5", "id OcTree", "size 17", "res 0.1")),
    accepted("Blanks and one carriage return at a line's end mean nothing",
             FIRST + b"\n \tid \t OcTree \t\r\n\tres\t0.1\r\nsize 17 \r\n  data\t\r\n"),
    accepted("A carriage return goes first, and then blanks",
             FIRST + b"\nid OcTree \r\nres 0.1\nsize 17\ndata\n"),
    accepted("Further words of a line mean nothing",
             FIRST + b"\nid OcTree of mine\nres 0.1 m\nsize 17 nodes\ndata from here\n"),
    accepted("The rest of the first line means nothing",
             FIRST + b"s, v1 id x\nid OcTree\nres 0.1\nsize 17\ndata\n"),
    accepted("Comments, empty lines and lines of other words are passed over",
             FIRST + b"\n\n \n#\n# id x\nauthor x\nids x\nid OcTree\nres 0.1\nsize 17\n"
             b"\r\ndatas\ndata\n"),
    accepted("Bytes that are no text are passed over too",
             FIRST + b"\n\0\xFF\nid OcTree\nres 0.1\nsize 17\n\x80 data\ndata\n"),
    accepted("A size may have leading zeros",
             head("id OcTree", "res 0.1", "size 000000000000000017")),
    accepted("A res may have another form than that which is written",
             head("id OcTree", "res 0000000.100000000", "size 17")),
]

RECORDS = [
    fault("A code 3 in a block of depth 15 is too deep", short_bt(17, "00C0" + 15 * "0300"),
          "16 TooDeep at 90"),
    fault("A code 3 is too deep in the record's second byte as well", short_bt(17, DOWN + "00C0"),
          "16 TooDeep at 90"),
    fault("A code 3 of child 4 is too deep", short_bt(17, DOWN + "0003"),
          "16 TooDeep at 90"),
    fault("A record too deep is told before bytes behind the data and a wrong size",
          short_bt(99, DOWN + "FFFF" + 9 * "0000"), "16 TooDeep at 90"),
    fault("The left one of two faults is named: here the end is",
          short_bt(24, "00C0" + 13 * "0300" + "0F00" + "0200"), "17 Truncated at 92"),
    fault("The left one of two faults is named: here the depth is",
          short_bt(24, "00C0" + 13 * "0300" + "0F00" + "0300"), "16 TooDeep at 90"),
    fault("Half a record isn't whole, even with a code 3 that would be too deep",
          short_bt(17, DOWN + "03"), "17 Truncated at 91"),
    fault("A file without the records that its size asks for is truncated", short_bt(17, ""),
          "17 Truncated at 60"),
    fault("A missing end is told before a wrong size", short_bt(18, DOWN), "17 Truncated at 90"),
    fault("Bytes behind the data are named by the first one", short_bt(17, DOWN + "0200" + "0000"),
          "18 TrailingBytes at 92"),
    fault("Bytes behind the data are told before a wrong size", short_bt(18, DOWN + "0200" + "00"),
          "18 TrailingBytes at 92"),
    fault("A size of 0 has no data", short_bt(0, "0000"), "18 TrailingBytes at 59"),
    fault("The size is the number of nodes", short_bt(18, DOWN + "0200"),
          "19 SizeMismatch said 18 found 17"),
    fault("Eight unknown children are one node, the root", short_bt(2, "0000"),
          "19 SizeMismatch said 2 found 1"),
    fault("A size may be wrong by much", short_bt(999999999999999999, "AAAA"),
          "19 SizeMismatch said 999999999999999999 found 9"),
    Row("A code 1 is free, and a code 2 is occupied", "inspect", short_bt(9, "5556"),
        "res 0.1 / size 9 / records 1 / free 246290604621824 / occupied 35184372088832 / "
        "canonical yes"),
    Row("A record of unknown children below the root is accepted, and canonical without",
        "convert", short_bt(2, "0300" + "0000"), bt(0, "")),
]


def restored(rule, file, answer, words="session 0.1"):
    """A snapshot that is refused; the map stays."""
    return Row(rule, words, "miss 1 1 1 ; restore s ; get 1 1 1 16",
               f"ok / refused {answer} / known -400 free", files={"s": file})


def bad_at(rule, file, at):
    return restored(rule, file, f"21 BadSnapshot at {at}")


def numbers(hit=850, miss=-400, least=-2000, largest=3500, thr=0, box=None):
    """A snapshot of the empty map with these log-odds."""
    return snap2(b"\0", (hit, miss, least, largest, thr), box)


EMPTY, BOX = snap2(b"\0"), 3 * "8000" + 3 * "8001"
TOP = 2 ** 31 - 1
SNAPSHOTS = [
    restored("An empty file is no snapshot", b"", "20 BadMagic"),
    restored("Seven bytes of the magic are none", b"OCTSNAP", "20 BadMagic"),
    restored("Another magic is none, however the file goes on", b"OCTSNAP3" + EMPTY[8:],
             "20 BadMagic"),
    restored("Another magic is told before a missing end", b"octsnap2" + 4 * b"\0", "20 BadMagic"),
] + [
    restored("A field that isn't whole is truncated at the file's length", EMPTY[:length],
             f"17 Truncated at {length}") for length in (8, 12, 15, 16, 35, 36, 37)
] + [
    restored("A node of version 1 that isn't there is missed", snap1(b""), "17 Truncated at 16"),
    restored("A box that isn't whole is missed", numbers(box=BOX)[:48], "17 Truncated at 48"),
    restored("A value that isn't whole is missed", snap2(value(9000)[:4]), "17 Truncated at 41"),
    restored("A child that isn't there is missed", snap2(parted({})[:8]), "17 Truncated at 45"),
    bad_at("A resolution of 99,999 nm is too fine", snap2(b"\0", res=99999), 8),
    bad_at("A resolution of 100 m and a nanometre is too coarse",
           snap1(b"\0", res=10 ** 11 + 1), 8),
    bad_at("A resolution of 2^64 - 1 nm is no negative one", snap1(b"\0", res=2 ** 64 - 1), 8),
    restored("A resolution of 0.0001 m is sound, and another one", snap1(b"\0", res=10 ** 5),
             "35 OtherResolution file 100000 session 100000000"),
    restored("A resolution of 100 m is sound, and another one", snap2(b"\0", res=10 ** 11),
             "35 OtherResolution file 100000000000 session 100000000"),
    bad_at("A resolution is judged with its eighth byte", snap2(b"\0", res=0)[:16], 8),
    restored("Before a resolution's eighth byte the end is missing",
             snap2(b"\0", res=0)[:15], "17 Truncated at 15"),
    bad_at("A bad resolution is told before bad log-odds",
           snap2(b"\0", (0, -400, -2000, 3500, 0), res=1), 8),
    bad_at("A bad resolution is told before a bad node of version 1", snap1(b"\3", res=1), 8),
    bad_at("The five numbers are judged with the last of their bytes", numbers(hit=0)[:36], 16),
    restored("Before the last byte of the five numbers the end is missing",
             numbers(hit=0)[:35], "17 Truncated at 35"),
    bad_at("A hit is above 0", numbers(hit=0), 16),
    bad_at("A hit is at most 1000000", numbers(hit=1000001), 16),
    bad_at("A hit of all bits is -1", numbers(hit=-1), 16),
    bad_at("A bad hit is told before a bad miss", numbers(hit=0, miss=0), 16),
    bad_at("A miss is below 0", numbers(miss=0), 20),
    bad_at("A miss is at least -1000000", numbers(miss=-1000001), 20),
    bad_at("A bad miss is told before a bad smallest value", numbers(miss=0, least=1), 20),
    bad_at("The smallest value is at most 0", numbers(least=1), 24),
    bad_at("The smallest value is at least -1000000", numbers(least=-1000001), 24),
    bad_at("A bad smallest value is told before a bad largest one",
           numbers(least=1, largest=-1), 24),
    bad_at("The largest value is at least 0", numbers(largest=-1), 28),
    bad_at("The largest value is at most 1000000", numbers(largest=1000001), 28),
    bad_at("A bad largest value is told before a bad threshold", numbers(largest=-1, thr=TOP), 28),
    bad_at("The threshold isn't the smallest value", numbers(thr=-2000), 32),
    bad_at("The threshold is at most the largest value", numbers(thr=3501), 32),
    bad_at("Bad log-odds are told before a bad byte that tells of a box",
           numbers(thr=3501)[:36] + b"\2", 32),
    bad_at("The byte that tells of a box is 0 or 1", EMPTY[:36] + b"\2\0", 36),
    bad_at("The byte that tells of a box may be no other", EMPTY[:36] + b"\xFF", 36),
    bad_at("The byte that tells of a box is judged before the box",
           EMPTY[:36] + b"\2" + data(3 * "8001" + 3 * "8000"), 36),
] + [
    bad_at("The low key of a box isn't above its high one, on each axis", numbers(box=box), 37)
    for box in ("800180008000" + 3 * "8000", "800080018000" + 3 * "8000",
                "800080008001" + 3 * "8000", "FFFF" + 5 * "0000")
] + [
    bad_at("A box is judged with its last byte", numbers(box="8001" + 5 * "8000")[:49], 37),
    restored("Before a box's last byte the end is missing", numbers(box="8001" + 5 * "8000")[:48],
             "17 Truncated at 48"),
    bad_at("A bad box is told before a bad node behind it",
           numbers(box="8001" + 5 * "8000")[:49] + b"\3",
           37),
    bad_at("A node begins with 0, 1 or 2", snap2(b"\3"), 37),
    bad_at("Behind a box the node stands twelve bytes further on", snap2(b"\3", box=BOX), 49),
    bad_at("In version 1 the node stands behind the resolution", snap1(b"\xFF"), 16),
    bad_at("A node of several values is no voxel's, and that is judged at once",
           snap1(b"\2" + 7 * b"\0" + 15 * b"\2" + b"\2"), 16 + 8 + 15),
    bad_at("A value is at most the largest one", snap2(value(3501)), 37),
    bad_at("A value is at least the smallest one", snap2(value(-2001)), 37),
    bad_at("In version 2 values are judged by the file's bounds",
           snap2(value(71), (1, -1, -1, 70, 0)), 37),
    bad_at("In version 1 values are judged by the bounds in force", snap1(value(3501)), 16),
    bad_at("A bad value is told before bytes behind it", snap2(value(3501) + b"\0"), 37),
    bad_at("A value below others is named by its node",
           snap2(parted({3: value(1), 5: value(9000)})), 37 + 1 + 3 + 5 + 1),
    bad_at("Eight children aren't all unknown", snap1(parted({})), 16),
    bad_at("Eight children don't all have one value",
           snap2(parted({i: value(7) for i in range(8)})), 37),
    bad_at("A bad value in the eighth of equal children is told before these",
           snap2(parted({i: value(7 if i < 7 else 9000) for i in range(8)})), 37 + 1 + 35),
    restored("Equal children aren't told where the eighth isn't whole",
             snap2(parted({i: value(7) for i in range(8)})[:40]), "17 Truncated at 77"),
    bad_at("A bad node is told before the one above it, which is whole later",
           snap1(b"\2" + 7 * b"\0" + parted({})), 16 + 8),
    bad_at("Eight equal children are told before bytes behind them", snap1(parted({}) + b"\0"), 16),
    restored("Bytes behind the node are named by the first one", EMPTY + b"\0\0",
             "18 TrailingBytes at 38"),
    restored("Bytes behind the node are told before another resolution",
             snap1(value(7) + b"\1", res=10 ** 9),
             "18 TrailingBytes at 21"),
    restored("A file of the other kind is no snapshot", VOXEL_FILE, "20 BadMagic"),
    Row("Of a refused snapshot neither log-odds nor box stand", "session 0.1",
        "restore s ; hit 0 0 0 ; get 0 0 0 16 ; scan 0 0 0 1 0 0 0 all ; p 0.5 0 0 ; end",
        "refused 18 TrailingBytes at 50 / ok / known 850 occupied / ok hits 1 frees 5",
        files={"s": snap2(b"\0\0", (7, -7, -70, 70, 0), box=BOX)}),
    Row("Log-odds of a snapshot hold for values, clamps and classes", "session 0.1",
        "restore s ; hit 0 0 0 ; get 0 0 0 16 ; miss 0 0 0 ; get 0 0 0 16 ; add 0 0 0 1000 ; "
        "get 0 0 0 16 ; add 0 0 0 -1000 ; get 0 0 0 16",
        "restored groups 0 / ok / known 7 occupied / ok / known 2 free / ok / known 70 occupied / "
        "ok / known -60 free", files={"s": snap2(b"\0", (7, -5, -60, 70, 3))}),
    Row("A load goes by the log-odds in force, here of a snapshot, and leaves them", "session 0.1",
        "restore s ; load m ; get 0 0 0 16 ; hit 1 1 1 ; get 1 1 1 16 ; miss 0 0 0 ; get 0 0 0 16",
        "restored groups 0 / loaded 17 / known 70 occupied / ok / known 7 occupied / ok / "
        "known 65 occupied", files={"s": snap2(b"\0", (7, -5, -60, 70, 3)), "m": VOXEL_FILE}),
    Row("A snapshot without a box takes a standing box away, and one of version 1 doesn't",
        "session 0.1",
        "limit 0 0 0 0 0 0 ; restore one ; scan 0 0 0 1 0 0 0 all ; p 0.5 0 0 ; end ; "
        "restore two ; scan 0 0 0 1 0 0 0 all ; p 0.5 0 0 ; end",
        "ok / restored groups 0 / ok hits 0 frees 1 / restored groups 0 / ok hits 1 frees 5",
        files={"one": snap1(b"\0"), "two": EMPTY}),
    Row("A snapshot's box stands", "session 0.1",
        "restore s ; scan 0 0 0 1 0 0 0 all ; p 0.5 0 0 ; end",
        "restored groups 0 / ok hits 0 frees 2", files={"s": snap2(b"\0", box=BOX)}),
    Row("A map of one value is one node of the snapshot", "session 0.1",
        "restore s ; get 3 3 3 0 ; counts", "restored groups 0 / known 3500 occupied / "
        "groups 0 nodes 1", files={"s": snap2(value(3500))}),
    Row("A value of a bound is sound", "session 0.1", "restore s ; get 0 0 0 16 ; get -1 -1 -1 16",
        "restored groups 1 / known -2000 free / known 3500 occupied",
        files={"s": snap2(parted({7: value(-2000), 0: value(3500)}))}),
]

LINES = [
    Row("One carriage return before a line feed is dropped, and no other", "session 0.1",
        b"hit 0 0 0\r\nhit 0 0 0\r\r\nhit 0 0\r0\n",
        "ok / refused 29 Syntax line 2 column 9 / refused 29 Syntax line 3 column 7"),
    Row("A carriage return at the end of the input stays", "session 0.1", b"get 0 0 0 16\r",
        "refused 29 Syntax line 1 column 11"),
    Row("A last line of a carriage return alone is a line", "session 0.1", b"\r",
        "refused 29 Syntax line 1 column 1"),
    Row("A last line needs no line feed", "session 0.1", b"hit 0 0 0", "ok"),
    Row("Blank lines, comments and a line of a carriage return have no reply, and a number",
        "session 0.1", b"\n \t\n# fly\n\t #fly\n\r\nfly\n", "refused 29 Syntax line 6 column 1"),
    Row("Words are parted by blanks, as many as there are", "session 0.1",
        b" \thit\t 0  0\t\t0 \t\n", "ok"),
    Row("A missing word's column is one behind the line, with its blanks", "session 0.1",
        b"hit 0 0  \nhit 0 0 \r\n",
        "refused 29 Syntax line 1 column 10 / refused 29 Syntax line 2 column 9"),
    Row("A comment stands alone in its line", "session 0.1", "hit 0 0 0 # fly",
        "refused 29 Syntax line 1 column 11"),
    Row("Behind a whole edit lazy alone can stand, and nothing behind that", "session 0.1",
        "hit 0 0 0 lazy lazy ; hit 0 0 0 laz ; box 0 0 0 0 0 0 hit lazy ; box 0 0 0 0 0 0 add ; "
        "box 0 0 0 0 0 0 lazy ; track 1 ; cast 0 0 0 0 0 0 ignored",
        "refused 29 Syntax line 1 column 16 / refused 29 Syntax line 2 column 11 / "
        "refused 29 Syntax line 3 column 21 / refused 29 Syntax line 4 column 20 / "
        "refused 29 Syntax line 5 column 17 / refused 29 Syntax line 6 column 7 / "
        "refused 29 Syntax line 7 column 18"),
    Row("Points and ends stand in a scan alone", "session 0.1", "p 1 0 0 ; end ; p",
        "refused 29 Syntax line 1 column 1 / refused 29 Syntax line 2 column 1 / "
        "refused 29 Syntax line 3 column 1"),
    Row("In a scan each other word is a fault, quit and scan among them", "session 0.1",
        "scan 0 0 0 1 0 0 0 all ; quit ; end ; scan 0 0 0 1 0 0 0 all ; scan 0 0 0 1 0 0 0 all ; "
        "end ; counts",
        "refused 29 Syntax line 2 column 1 / refused 29 Syntax line 5 column 1 / "
        "groups 0 nodes 0"),
    Row("A faulty head opens a scan too, and an end with a word more closes none", "session 0.1",
        "scan fly ; p 1 0 0 ; end 1 ; hit 0 0 0 ; end ; counts",
        "refused 29 Syntax line 1 column 6 / groups 0 nodes 0"),
    Row("Blank lines and comments may stand in a scan", "session 0.1",
        "scan 0 0 0 1 0 0 0 all ; # p ; \t ; p 0 0 0 ; end", "ok hits 1 frees 0"),
    Row("A line that is too long opens no scan", "session 0.1",
        b"scan 0 0 0 1 0 0 0 all" + 4075 * b" " + b"\np 1 0 0\n",
        "refused 30 LongLine line 1 / refused 29 Syntax line 2 column 1"),
    Row("A quit with a word more is none, and one without a line feed is one", "session 0.1",
        b"quit now\n \tquit \t", "refused 29 Syntax line 1 column 6"),
]

ROWS = BEGINNINGS + FIELDS + HEADERS + RECORDS + SNAPSHOTS + LINES
