"""Scripts and files that were worked out by hand: one for each thing that the program does."""
from row import DOWN, Front, Row, bt, data, down, short_bt, snap1, snap2, value, wall

EIGHT = [f"{x} {y} {z}" for z in ("0", "0.1") for y in ("0", "0.1") for x in ("0", "0.1")]
EIGHT_HITS = " ; ".join(f"hit {corner}" for corner in EIGHT)
EIGHT_FILE = bt(16, "00C0" + 13 * "0300" + "0200")
VOXEL_FILE = bt(17, DOWN + "0200")
FREE_FILE = bt(17, DOWN + "0100")
TWO_CLASSES = bt(24, DOWN + "A9AA")
FREE_HALF = short_bt(5, "1111")
ALL_FILE = bt(9, "AAAA")
WHOLE = "-3276.8 -3276.8 -3276.8 3276.7 3276.7 3276.7"
SCAN = "scan 0.05 0.05 0.05 1 0 0 0 all ; p 0.2 0 0 ; p 0.4 0 0 ; end"
SCAN_FILE = bt(24, "00C0" + 12 * "0300" + "0F000F000500060003000200")
# Eight children that are equal stand as a record, and so the file isn't canonical.
FOREIGN = b"\r\n".join(
    [b"# Octomap OcTree binary file", b"# a comment", b"author x", b"size 24", b"res 0.1",
     b"id OcTree", b"data", b""]) + data(DOWN + "AAAA")
BOX = "Transform { translation %s children [ Shape { geometry Box { size %s } } ] }"
VOXEL_SNAP = snap2(down(value(850), 16))
EMPTY_SNAP = data("4F4354534E41503200000000 05F5E100 00000352 FFFFFE70 FFFFF830 00000DAC 00000000"
                  "00 00")
# The 27 free voxels of a cube from voxel 0 on: a whole block of eight, and parts of seven others.
CUBE = bt(42, "00C0" + 13 * "0300" + "FDFF" + "1111 0505 0101 5500 1100 0500 0100")

SESSIONS = [
    Row("Nothing is answered to no line", "session 0.1"),
    Row("A hit adds 850 to a voxel", "session 0.1",
        "hit 0 0 0 ; get 0 0 0 16", "ok / known 850 occupied"),
    Row("A sum above the largest value is that value, and a miss starts from there",
        "session 0.1",
        5 * "hit 0 0 0 ; " + "get 0 0 0 16 ; hit 0 0 0 ; get 0 0 0 16 ; miss 0 0 0 ; get 0 0 0 16",
        5 * "ok / " + "known 3500 occupied / ok / known 3500 occupied / ok / known 3100 occupied"),
    Row("A sum below the smallest value is that value; from 0 on a voxel is occupied",
        "session 0.1",
        6 * "miss 0 0 0 ; " + "get 0 0 0 16" + 3 * " ; hit 0 0 0 ; get 0 0 0 16",
        6 * "ok / " + "known -2000 free / ok / known -1150 free / ok / known -300 free / "
        "ok / known 550 occupied"),
    Row("Voxels below 0 are others, and share the whole map alone with those from 0 on",
        "session 0.1",
        "hit 0 0 0 ; get -0.05 -0.05 -0.05 16 ; get -0.05 -0.05 -0.05 1 ; get -0.05 -0.05 -0.05 0",
        "ok / unknown / unknown / known 850 occupied"),
    Row("A block has the largest value of its voxels", "session 0.1",
        "hit 0 0 0 ; miss 0.1 0 0 ; get 0.1 0 0 15 ; get 0.1 0 0 16",
        "ok / ok / known 850 occupied / known -400 free"),
    Row("A lazy edit leaves the blocks above to a refresh", "session 0.1",
        "hit 0 0 0 lazy ; get 0 0 0 16 ; get 0 0 0 15 ; refresh ; get 0 0 0 15",
        "ok / known 850 occupied / refused 22 Stale / ok / known 850 occupied"),
    Row("A beam meets a voxel of which it touches a single point: between (0, 1) and (1, 0) it "
        "meets (1, 1), which has its lower corner there", "session 0.1",
        "scan 0.05 0.15 0.05 1 0 0 0 all ; p 0.1 -0.1 0 ; end ; list 0 0 0 0.1 0.1 0 16",
        "ok hits 1 frees 2 / block 32768 32769 32768 -400 free / "
        "block 32769 32768 32768 850 occupied / block 32769 32769 32768 -400 free / end 3"),
    Row("A beam through a corner goes on diagonally", "session 0.1",
        "scan 0.05 0.05 0.05 1 0 0 0 all ; p 0.2 0.2 0 ; end ; list 0 0 0 0.2 0.2 0 16",
        "ok hits 1 frees 2 / block 32768 32768 32768 -400 free / "
        "block 32769 32769 32768 -400 free / block 32770 32770 32768 850 occupied / end 3"),
    Row("A scan hits the voxels in which beams end, and frees the others that they meet",
        "session 0.1", SCAN + " ; counts ; list 0 0 0 0.4 0 0 16 ; save m",
        "ok hits 2 frees 3 / groups 19 nodes 24 / block 32768 32768 32768 -400 free / "
        "block 32769 32768 32768 -400 free / block 32770 32768 32768 850 occupied / "
        "block 32771 32768 32768 -400 free / block 32772 32768 32768 850 occupied / end 5 / "
        "saved 175", left={"m": SCAN_FILE}),
    Row("The beams of a scan count their voxels each for itself", "session 0.1 --max-cells 3",
        SCAN, "refused 8 TooManyCells index 1 cells 8"),
    Row("A scan may meet exactly as many voxels as --max-cells says", "session 0.1 --max-cells 8",
        SCAN, "ok hits 2 frees 3"),
    Row("A scan may not meet one voxel more than --max-cells says", "session 0.1 --max-cells 7",
        SCAN, "refused 8 TooManyCells index 1 cells 8"),
    Row("Eight voxels of one class are one block in a file", "session 0.1",
        EIGHT_HITS + " ; counts ; save m", 8 * "ok / " + "groups 15 nodes 16 / saved 167",
        left={"m": EIGHT_FILE}),
    Row("One voxel has a record at each depth from 0 to 15", "session 0.1",
        "hit 0 0 0 ; counts ; save m", "ok / groups 16 nodes 17 / saved 169",
        left={"m": VOXEL_FILE}),
    Row("The whole map is one record of eight leaves", "session 0.1",
        f"box {WHOLE} set 850 ; counts ; save m", "ok / groups 0 nodes 1 / saved 138",
        left={"m": ALL_FILE}),
    Row("Eight voxels of eight values and one class have the file of one block", "session 0.1",
        " ; ".join(f"hit {corner}" for n, corner in enumerate(EIGHT) for _ in range(n + 1))
        + " ; counts ; save m", 36 * "ok / " + "groups 16 nodes 24 / saved 167",
        left={"m": EIGHT_FILE}),
    Row("The quaternion 1 0 0 1 is a quarter turn: ahead becomes left", "session 0.1",
        "scan 0 0 0 1 0 0 1 all ; p 1 0 0 ; end ; get 0 1 0 16",
        "ok hits 1 frees 10 / known 850 occupied"),
    Row("A turned point is rounded to the nearest nanometre on each axis: of -0.6 and 0.8 to "
        "-1 and 1", "session 0.1",
        "scan 0 0 0 1 0 0 2 all ; p 0.000000001 0 0 ; end ; get -0.1 0 0 16",
        "ok hits 1 frees 1 / known 850 occupied"),
    Row("A quaternion of 0 is none", "session 0.1", "scan 0 0 0 0 0 0 0 all ; end",
        "refused 5 ZeroQuaternion"),
    Row("A beam that is cut frees the voxels before its end, and leaves that of its end",
        "session 0.1", "scan 0.05 0.05 0.05 1 0 0 0 0.5 ; p 1 0 0 ; end ; list 0 0 0 1 0 0 16",
        "ok hits 0 frees 5 / " + " / ".join(f"block {32768 + n} 32768 32768 -400 free"
                                            for n in range(5)) + " / end 5"),
    Row("A cut end is rounded towards 0: from (1, 1) nm a beam of (-3, -3) nm ends at 0 with a "
        "range of 2 nm, and so leaves no voxel", "session 0.1",
        "scan 0.000000001 0.000000001 0 1 0 0 0 0.000000002 ; p -0.000000003 -0.000000003 0 ; end",
        "ok hits 0 frees 0"),
    Row("An edit needs room for sixteen groups", "session 0.1 --max-groups 16",
        "hit 0 0 0 ; hit 1 0 0 ; get 0 0 0 0 ; get 1 0 0 16",
        "ok / refused 23 Full groups 16 need 16 / known 850 occupied / unknown"),
    Row("Lazy edits leave groups that a full map gives back", "session 0.1 --max-groups 32",
        EIGHT_HITS.replace(" ;", " lazy ;") + " lazy ; counts ; hit 1 0 0",
        8 * "ok / " + "groups 15 nodes 16 / ok"),
    Row("With 31 groups a second edit has no room, lazy or not", "session 0.1 --max-groups 31",
        "hit 0 0 0 lazy ; hit 0.1 0 0 lazy", "ok / refused 23 Full groups 16 need 16"),
    Row("A change is told by the classes at the mark and now, not by those between",
        "session 0.1",
        "track ; hit 0 0 0" + 4 * " ; miss 0 0 0" + " ; get 0 0 0 16 ; changes",
        6 * "ok / " + "known -750 free / new 32768 32768 32768 / end 1"),
    Row("A voxel that is again as at the mark is no change", "session 0.1",
        "hit 0 0 0 ; track ; forget 0 0 0 ; miss 0.1 0 0 ; hit 0 0 0 ; changes ; untrack ; changes",
        5 * "ok / " + "new 32769 32768 32768 / end 1 / ok / refused 28 NotTracked"),
    Row("A change has one of four kinds", "session 0.1",
        "hit 0 0 0 ; hit 0.1 0 0 ; miss 0.2 0 0 ; track ; forget 0 0 0 ; set 0.1 0 0 -1 ; "
        "set 0.2 0 0 0 ; set 0.3 0 0 0 ; changes",
        8 * "ok / " + "lost 32768 32768 32768 / freed 32769 32768 32768 / "
        "occupied 32770 32768 32768 / new 32771 32768 32768 / end 4"),
    Row("A cast names the first voxel that stops it, and ignore lets unknown ones pass",
        "session 0.1", SCAN + " ; cast 0.05 0.05 0.05 0.45 0.05 0.05 ; "
        "cast 0.05 0.05 0.05 0.05 0.25 0.05 ; cast 0.05 0.05 0.05 0.05 0.25 0.05 ignore",
        "ok hits 2 frees 3 / cast hit 32770 32768 32768 / cast unknown 32768 32769 32768 / "
        "cast clear"),
    Row("A value is set to the bounds where it lies beyond them", "session 0.1",
        "set 0 0 0 9000 ; get 0 0 0 16 ; add 0 0 0 -9000 ; get 0 0 0 16 ; forget 0 0 0 ; "
        "get 0 0 0 16", "ok / known 3500 occupied / ok / known -2000 free / ok / unknown"),
    Row("Adding 0 to an unknown voxel makes it known", "session 0.1",
        "add 0 0 0 0 ; get 0 0 0 16", "ok / known 0 occupied"),
    Row("Lines after quit have no effect", "session 0.1", "hit 0 0 0 ; quit ; hit 0 0 0", "ok"),
    Row("What can't be done says why, and the map stays", "session 0.1",
        "get 0 0 ; hit 0 0 x ; hit 4000 0 0 ; get 0 0 0 17 ; box 1 0 0 0 0 0 forget ; counts",
        "refused 29 Syntax line 1 column 8 / refused 29 Syntax line 2 column 9 / "
        "refused 24 Outside point 1 / refused 25 BadDepth / refused 26 BadBox / groups 0 nodes 0"),
    Row("A word that is no command is a fault at its column", "session 0.1",
        "fly 0 0 0", "refused 29 Syntax line 1 column 1"),
    Row("A scan that the input leaves open isn't done", "session 0.1",
        "scan 0 0 0 1 0 0 0 all ; p 1 0 0", "refused 31 OpenScan line 1"),
    Row("The first faulty line is the fault of a scan, and an edit inside it isn't done",
        "session 0.1", "scan 0 0 0 1 0 0 0 all ; p 1 0 ; hit 0 0 0 ; end ; get 0 0 0 16",
        "refused 29 Syntax line 2 column 6 / unknown"),
    Row("Blocks of depth 15 have two voxels along each axis", "session 0.1",
        SCAN + " ; list 0 0 0 0.4 0 0 15",
        "ok hits 2 frees 3 / block 16384 16384 16384 -400 free / "
        "block 16385 16384 16384 850 occupied / block 16386 16384 16384 850 occupied / end 3"),
    Row("A box reaches from voxel to voxel, both included", "session 0.1",
        "box 0 0 0 0.1 0.1 0.1 hit ; counts", "ok / groups 15 nodes 16"),
    Row("A box needs the blocks that it cuts: 16 for one voxel or two, 15 for a block of eight, "
        "none for the map", "session 0.1 --max-groups 16",
        "hit 1 1 1 ; box 0 0 0 0 0 0 hit ; box 0 0 0 0.1 0 0 hit ; box 0 0 0 0.1 0.1 0.1 hit ; "
        f"box {WHOLE} forget",
        "ok / refused 23 Full groups 16 need 16 / refused 23 Full groups 16 need 16 / "
        "refused 23 Full groups 16 need 15 / ok"),
    Row("The likeliest map has the bounds alone, and an empty map's file has no data",
        "session 0.1", "hit 0 0 0 ; maxlik ; get 0 0 0 16 ; forget 0 0 0 ; counts ; save e",
        "ok / ok / known 3500 occupied / ok / groups 0 nodes 0 / saved 136",
        left={"e": bt(0, "")}),
    Row("Of ten bytes a session answers the line that ends there", "session 0.1 --max-bytes 10",
        "hit 0 0 0 ; get 0 0 0 16", "ok", 4),
    Row("An input of exactly as many bytes as it may have is answered whole",
        "session 0.1 --max-bytes 23", "hit 0 0 0 ; get 0 0 0 16", "ok / known 850 occupied"),
    Row("Scans change only the voxels of the box of limit", "session 0.1",
        f"limit 0.1 0 0 0.3 0 0 ; {SCAN} ; list 0 0 0 0.4 0 0 16",
        "ok / ok hits 1 frees 2 / block 32769 32768 32768 -400 free / "
        "block 32770 32768 32768 850 occupied / block 32771 32768 32768 -400 free / end 3"),
    Row("Voxels outside the box of limit need no room", "session 0.1 --max-groups 16",
        f"limit 0.1 0 0 0.3 0 0 ; {SCAN} ; nolimit ; {SCAN}",
        "ok / refused 23 Full groups 0 need 17 / ok / refused 23 Full groups 0 need 19"),
    Row("A scan may have log-odds of its own", "session 0.1",
        "scan 0.05 0.05 0.05 1 0 0 0 all 500 -200 ; p 0.2 0 0 ; end ; get 0.2 0 0 16 ; "
        "get 0 0 0 16", "ok hits 1 frees 2 / known 500 occupied / known -200 free"),
    Row("A scan has both log-odds of its own or neither",
        "session 0.1", "scan 0 0 0 1 0 0 0 all 500 ; end",
        "refused 29 Syntax line 1 column 27"),
]

FILES = [
    Row("A snapshot keeps values, and log-odds that are the defaults", "session 0.1",
        "hit 0 0 0 ; snapshot a ; clear ; get 0 0 0 16 ; restore a ; get 0 0 0 16",
        "ok / saved 170 / ok / unknown / restored groups 16 / known 850 occupied",
        left={"a": VOXEL_SNAP}),
    Row("The snapshot of an empty map has the default log-odds and no box", "session 0.1",
        "snapshot e", "saved 38", left={"e": EMPTY_SNAP}),
    Row("A snapshot of the default log-odds is restored", "session 0.1",
        "restore a ; get 0 0 0 16", "restored groups 16 / known 850 occupied",
        files={"a": VOXEL_SNAP}),
    Row("A snapshot of version 1 is read, and version 2 is written", "session 0.1",
        "restore a ; snapshot b", "restored groups 16 / saved 170",
        files={"a": snap1(down(value(850), 16))}, left={"b": VOXEL_SNAP}),
    Row("From a restored snapshot on its log-odds hold", "session 0.1 --hit 500",
        "restore a ; hit 0 0 0 ; get 0 0 0 16", "restored groups 16 / ok / known 1700 occupied",
        files={"a": VOXEL_SNAP}),
    Row("A snapshot of version 1 leaves the log-odds", "session 0.1 --hit 500",
        "restore a ; hit 0 0 0 ; get 0 0 0 16", "restored groups 16 / ok / known 1350 occupied",
        files={"a": snap1(down(value(850), 16))}),
    Row("A snapshot has the box of limit, as keys from low to high", "session 0.1",
        "limit 0 0 0 1 1 1 ; hit 0 0 0 ; snapshot a", "ok / ok / saved 182",
        left={"a": snap2(down(value(850), 16), box=3 * "8000" + 3 * "800A")}),
    Row("A loaded voxel has a bound as its value, and a load ends the mark", "session 0.1",
        "hit 0 0 0 ; save m ; clear ; load m ; get 0 0 0 16 ; load n ; changes",
        "ok / saved 169 / ok / loaded 17 / known 3500 occupied / refused 33 NoFile / "
        "refused 28 NotTracked", left={"m": VOXEL_FILE}),
    Row("A file of another resolution isn't loaded", "session 0.05", "load m",
        "refused 35 OtherResolution file 100000000 session 50000000", files={"m": EIGHT_FILE}),
    Row("build writes the file of the map that its script leaves", "build 0.1",
        f"box {WHOLE} set 850", ALL_FILE),
    Row("build writes it after a refusal too", "build 0.1", "fly ; hit 0 0 0", VOXEL_FILE, 1),
    Row("convert writes the canonical file, whatever the header looks like", "convert", FOREIGN,
        EIGHT_FILE),
    Row("inspect counts nodes and records as they stand", "inspect", FOREIGN,
        "res 0.1 / size 24 / records 16 / free 0 / occupied 8 / canonical no"),
    Row("inspect says yes of a canonical file", "inspect", EIGHT_FILE,
        "res 0.1 / size 16 / records 15 / free 0 / occupied 8 / canonical yes"),
    Row("Eight unknown children are accepted, and aren't canonical", "inspect", short_bt(1, "0000"),
        "res 0.1 / size 1 / records 1 / free 0 / occupied 0 / canonical no"),
    Row("A file without data is that of an empty map, and is canonical", "inspect",
        short_bt(0, ""),
        "res 0.1 / size 0 / records 0 / free 0 / occupied 0 / canonical yes"),
]

# A wall of 512 by 576 voxels has 256 * 288 + 128 * 144 + 64 * 72 + 32 * 36 + 16 * 18 + 8 * 9 +
# 4 * 5 + 2 * 3 + 1 * 2 + 7 records, one of 1024 by 3072 has 2^20 - 1 + 7. Each record but the first
# one is a node, and so is each voxel, and the root.
WALLS = [(512, 576, "51.1 57.5", 98315, 393227, 196771),
         (1024, 3072, "102.3 307.1", 1048582, 4194310, 2097306)]
FILES += [
    Row("A large file is saved and loaded whole", "session 0.1",
        f"box 0 0 0 {corner} 0 hit ; save m ; clear ; load m ; save n ; counts ; get 0 0 0 16",
        f"ok / saved {length} / ok / loaded {nodes} / saved {length} / "
        f"groups {records} nodes {nodes} / known 3500 occupied",
        left=dict.fromkeys("mn", bt(nodes, "00C0" + wall(width, height).hex())))
    for width, height, corner, records, nodes, length in WALLS
]

TASKS = [
    Row("gen writes how it was asked, and quit", "gen 7 0 0", "", "# octomap gen 7 0 0 / quit"),
    Row("A seed loses its leading zeros", "gen 0007 0 0", "", "# octomap gen 7 0 0 / quit"),
    Row("The first number of seed 1 comes from 908834774", "gen 1 1 0", "",
        Front("# octomap gen 1 1 0 / scan 1.623 ")),
    Row("A drill of nothing leaves an empty map, whose file has 137 bytes at 0.05 m",
        "drill 0 0 0", "", "scans 0 refused 0 / hits 0 frees 0 / groups 0 nodes 0 / bt 137"),
    Row("A single free voxel has unknown ones beside it", "frontier 0 0 0 0 0 0", FREE_FILE,
        "frontier 32768 32768 32768 / end 1"),
    Row("Of a cube of 27 free voxels that in the middle has none", "frontier 0 0 0 0.2 0.2 0.2",
        CUBE, " / ".join(f"frontier {32768 + n // 9} {32768 + n // 3 % 3} {32768 + n % 3}"
                         for n in range(27) if n != 13) + " / end 26"),
    Row("Neighbours outside the box count", "frontier -0.1 0 0 -0.1 0 0", FREE_HALF,
        "frontier 32767 32768 32768 / end 1"),
    Row("A voxel among free ones is none", "frontier -0.2 0 0 -0.2 0 0", FREE_HALF, "end 0"),
    Row("A frontier of 2^32 voxels is too long", f"frontier {WHOLE}", FREE_HALF,
        "refused 37 TooManyFrontiers"),
    Row("Neighbours outside the map don't count: of a free map no voxel is one",
        "frontier -3276.8 -3276.8 -3276.8 -3276.8 -3276.8 -3276.8", short_bt(9, "5555"), "end 0"),
    Row("Where either file may say occupied, the block stays", "merge greatest A B", "",
        EIGHT_FILE, files={"A": EIGHT_FILE, "B": FREE_FILE}),
    Row("Where either may say free, one voxel of it is free", "merge least A B", "", TWO_CLASSES,
        files={"A": EIGHT_FILE, "B": FREE_FILE}),
    Row("Where the first file decides, it is free too", "merge first B A", "", TWO_CLASSES,
        files={"A": EIGHT_FILE, "B": FREE_FILE}),
    Row("A known voxel wins over an unknown one, whichever file decides", "merge first A B", "",
        EIGHT_FILE, files={"A": EIGHT_FILE, "B": FREE_FILE}),
    Row("A file merged with itself is made canonical", "merge least A A", "", EIGHT_FILE,
        files={"A": FOREIGN}),
    Row("A table counts pairs of classes", "table A B 0 0 0 0.1 0.1 0.1", "",
        "unknown unknown 0 / unknown free 0 / unknown occupied 0 / free unknown 0 / free free 0 / "
        "free occupied 0 / occupied unknown 7 / occupied free 1 / occupied occupied 0",
        files={"A": EIGHT_FILE, "B": FREE_FILE}),
    Row("The table of the whole map adds up to 2^48 voxels", f"table A B {WHOLE}", "",
        "unknown unknown 281474976710648 / unknown free 0 / unknown occupied 0 / free unknown 0 / "
        "free free 0 / free occupied 0 / occupied unknown 7 / occupied free 1 / "
        "occupied occupied 0", files={"A": EIGHT_FILE, "B": FREE_FILE}),
    Row("A file that isn't there is named as the first or the second", "merge first A c", "",
        "second refused 33 NoFile", 1, files={"A": EIGHT_FILE}),
    Row("A picture has the highest y first: occupied is 0, unknown 205",
        "project 0 0 0 0.2 0.1 0.1", EIGHT_FILE, b"P5\n3 2\n255\n\x00\x00\xCD\x00\x00\xCD"),
    Row("A free column is 254", "project 0 0 0 0.1 0 0", TWO_CLASSES, b"P5\n2 1\n255\n\xFE\x00"),
    Row("An occupied voxel wins over a free one of its column", "project 0 0 0 0 0 0.1",
        TWO_CLASSES, b"P5\n1 1\n255\n\x00"),
    Row("A picture of the map is too wide", f"project {WHOLE}", EIGHT_FILE,
        "refused 38 WideGrid count 4294967296"),
    Row("Eight occupied voxels are one box", "vrml", EIGHT_FILE,
        "#VRML V2.0 utf8 / " + BOX % ("0.1 0.1 0.1", "0.2 0.2 0.2")),
    Row("Eight occupied voxels are one box where a record parts them too", "vrml", FOREIGN,
        "#VRML V2.0 utf8 / " + BOX % ("0.1 0.1 0.1", "0.2 0.2 0.2")),
    Row("The whole map is one box around 0", "vrml", ALL_FILE,
        "#VRML V2.0 utf8 / " + BOX % ("0 0 0", "6553.6 6553.6 6553.6")),
    Row("A middle may lie at half a nanometre", "vrml", bt(17, DOWN + "0200", "0.000100001"),
        "#VRML V2.0 utf8 / " + BOX % (" ".join(3 * ["0.0000500005"]),
                                      " ".join(3 * ["0.000100001"]))),
    Row("An empty map has no box", "vrml", bt(0, ""), "#VRML V2.0 utf8"),
]

ROWS = SESSIONS + FILES + TASKS
