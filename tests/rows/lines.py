"""Lines that are at fault, with the column of the fault: the first byte of the first word that
isn't as the grammar has it, or one behind the line where a word is missing."""
from row import Row

FAULTY = [
    ("clears", 1), (" counted 0", 2), ("Hit 0 0", 1), ("get 0 0", 8), ("hit 0 0 x", 9), ("hit", 4),
    ("  hit\t ", 8), ("hit 12345678 0 0", 5), ("hit 0 .5 0", 7), ("hit 0 0 0 0", 11),
    ("hit 0 0 0 lazy lazy", 16), ("hit 0 0 0 lazy x", 16), ("hit 0 0 0 lazyx", 11),
    ("hit 0 0 0 laz", 11), ("miss 0 0 0 # no comment here", 12), ("add 0 0 0", 10),
    ("add 0 0 0 1000001", 11), ("add 0 0 0 00000001", 11), ("set 0 0 0 -", 11),
    ("set 0 0 0 1.0", 11), ("get 0 0 0 12345678", 11), ("get 0 0 0 -1", 11), ("get 0 0 0 -0", 11),
    ("get 0 0 0", 10), ("get 0 0 0 16 16", 14), ("counts x", 8), ("refresh 16", 9),
    ("prune lazy", 7), ("clear 0", 7), ("maxlik 0 0 0", 8), ("cast 0 0 0", 11),
    ("cast 0 0 0 0 0", 15), ("cast 0 0 0 ignore", 12), ("cast 0 0 0 0 0 x", 16),
    ("cast 0 0 0 0 0 0 lazy", 18), ("cast 0 0 0 0 0 0 ignored", 18),
    ("cast 0 0 0 0 0 0 ignore 1", 25), ("box", 4), ("box 0 0 0 0 0", 14),
    ("box 0 0 0 0 0 x hit", 15), ("box 0 0 0 0 0 0", 16), ("box 0 0 0 0 0 0 hits", 17),
    ("box 0 0 0 0 0 0 16", 17), ("box 0 0 0 0 0 0 hit lazy", 21), ("box 0 0 0 0 0 0 miss 0", 22),
    ("box 0 0 0 0 0 0 forget 0", 24), ("box 0 0 0 0 0 0 add", 20),
    ("box 0 0 0 0 0 0 add 1000001", 21), ("box 0 0 0 0 0 0 set 0 lazy", 23), ("list", 5),
    ("list 0 0 0 0 0 0", 17), ("list 0 0 0 0 0 0 -1", 18), ("list 0 0 0 0 0 0 12345678", 18),
    ("list 0 0 0 0 0 0 16 16", 21), ("limit 0 0 0 0 0", 16), ("limit 0 0 0 0 0 x", 17),
    ("limit 0 0 0 0 0 0 16", 19), ("quit now", 6), ("scan", 5), ("scan 0 0 0 1 0 0 0", 19),
    ("scan 0 0 0 32768 0 0 0 all", 12), ("scan 0 0 0 0 -32769 0 0 all", 14),
    ("scan 0 0 0 0 0 0.0 0 all", 16), ("scan 0 0 0 0 0 0 00000001 all", 18),
    ("scan 0 0 0 1 0 0 0 -0.000000001", 20), ("scan 0 0 0 1 0 0 0 alls", 20),
    ("scan 0 0 0 1 0 0 0 all all", 24), ("scan 0 0 0 1 0 0 0 8 lazy x", 27),
    ("scan 0 0 0 1 0 0 0 8 lazy 1 -1", 27), ("scan 0 0 0 1 0 0 0 8 0 -1", 22),
    ("scan 0 0 0 1 0 0 0 8 -1 -1", 22), ("scan 0 0 0 1 0 0 0 8 1000001 -1", 22),
    ("scan 0 0 0 1 0 0 0 8 1", 23), ("scan 0 0 0 1 0 0 0 8 1 0", 24),
    ("scan 0 0 0 1 0 0 0 8 1 1", 24), ("scan 0 0 0 1 0 0 0 8 1 -1000001", 24),
    ("scan 0 0 0 1 0 0 0 8 1 lazy", 24), ("scan 0 0 0 1 0 0 0 8 1 -1 x", 27),
    ("scan 0 0 0 1 0 0 0 8 1 -1 lazy 1", 32), ("save", 5), ("save  ", 7), ("save .m", 6),
    ("save a/b", 6), ("load -m", 6), ("load m m", 8), ("snapshot m.bt lazy", 15),
    ("restore mä", 9),
    ("track 1", 7), ("untrack all", 9), ("changes 0", 9), ("nolimit 0 0 0", 9), ("p 0 0 0", 1),
    (" end", 2),
]
# And in the block of a scan.
FAULTY_IN_SCAN = [
    ("clears", 1), ("p", 2), ("p 0 0", 6), ("p 0 0 0 0", 9), ("end now", 5), ("hit 0 0 0", 1),
    (" get 0 0", 2), ("counts", 1), ("  quit", 3), (" maxlik", 2), ("cast 0 0 0 0 0 0", 1),
    ("box 0 0 0", 1), ("scan 0 0 0", 1), (" save m", 2), ("track", 1), ("list", 1),
    (" limit 0 0", 2),
]


def answered(line, number, column):
    """A line of that number, the end of a scan that it may open, and its answer."""
    before = "scan 0 0 0 1 0 0 0 all\n" if number == 2 else ""
    after = "end\n" if before or line.split()[0] == "scan" else ""
    return Row("A line that isn't in the grammar is a fault at its column", "session 0.1",
               f"{before}{line}\n{after}".encode(),
               f"refused 29 Syntax line {number} column {column}")


ROWS = [answered(line, 1, column) for line, column in FAULTY] + [
    answered(line, 2, column) for line, column in FAULTY_IN_SCAN
]
