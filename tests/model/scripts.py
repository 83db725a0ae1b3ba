"""Random scripts, in a small part of the map, so that their commands meet one another."""

DEPTHS = [16, 16, 15, 14, 13, 10, 1, 0, 17]
NAMES = ["a", "b", "map.bt", "-", ".x", "n" * 65]
ALONE = "counts counts counts refresh refresh prune maxlik clear track track untrack".split()
ALONE += "changes changes changes nolimit".split()


def length(draw):
    """A length near 0: on a face of a voxel, in its middle, or anywhere; seldom far off the map."""
    near = [draw.randint(-2, 2) / 10, draw.randint(-5, 5) / 20, draw.uniform(-0.3, 0.3)]
    metres = draw.choice(near) if draw.random() < 0.995 else draw.choice([9000, -3276.8, 3276.75])
    return f"{metres:.{draw.choice([1, 2, 3, 9])}f}"


def point(draw):
    return " ".join(length(draw) for _ in range(3))


def corners(draw):
    """Two corners, most often the lower one first."""
    low = [draw.randint(-3, 2) for _ in range(3)]
    spans = [0, 0, 1, 1, 1, 2, 3, 7] if draw.random() < 0.9 else [-1, 0, 1]
    high = [number + draw.choice(spans) for number in low]
    return " ".join(f"{number / 10}" for number in low + high)


def own_odds(draw):
    if draw.random() < 0.7:
        return ""
    hit, miss = draw.choice([(1, -1), (500, -200), (1_000_000, -1_000_000), (7, -3000)])
    return f" {hit} {miss}"


def scan(draw, lazy):
    turn = [draw.randint(-3, 3) for _ in range(3)] + [draw.choice([1, 2, -3, 5])]
    turn = [0, 0, 0, 0] if draw.random() < 0.02 else turn
    reach = draw.choice(["all", "0.5", "0.37", "0", "1"])
    head = f"scan {point(draw)} {' '.join(map(str, turn))} {reach}{own_odds(draw)}{lazy}"
    return [head, *(f"p {point(draw)}" for _ in range(draw.randint(0, 4))), "end"]


def change(draw):
    if draw.random() < 0.6:
        return draw.choice(["hit", "miss", "forget"])
    return f"{draw.choice(['add', 'set'])} {draw.randint(-5000, 5000)}"


def edit(draw, lazy):
    verb, *number = change(draw).split()
    return [" ".join([verb, point(draw), *number]) + lazy]


def file_line(draw):
    verb = draw.choice(["save", "load", "snapshot", "restore"])
    names = NAMES[:3] if draw.random() < 0.95 else NAMES[3:]
    return [f"{verb} {draw.choice(names)}"]


# What a command is made by, and how often.
MAKERS = [
    (28, scan),
    (22, edit),
    (8, lambda draw, _: [f"box {corners(draw)} {change(draw)}"]),
    (10, lambda draw, _: [f"get {point(draw)} {draw.choice(DEPTHS)}"]),
    (5, lambda draw, _: [f"list {corners(draw)} {draw.choice(DEPTHS[:6] + DEPTHS[8:])}"]),
    (8, lambda draw, _: [f"cast {point(draw)} {point(draw)}{draw.choice(['', ' ignore'])}"]),
    (4, lambda draw, _: [f"limit {corners(draw)}"]),
    (8, lambda draw, _: file_line(draw)),
    (12, lambda draw, _: [draw.choice(ALONE)]),
]


def spoiled(draw, line, first):
    """The line with one word more, less or other, from the first of these on, or other blanks."""
    words = line.split(" ")
    at = draw.randrange(min(first, len(words)), len(words) + first)
    strange = ["x", "1e3", "--1", "12345678", "0.0000000001", ".5", "lazy", "-0", "7777777", "#"]
    how = draw.randrange(5)
    if how == 0:
        words[at : at + 1] = []
    elif how == 1:
        words[at : at + 1] = [draw.choice(strange)]
    elif how == 2:
        words.insert(at, draw.choice(strange))
    elif how == 3:
        words.insert(at, " \t ")
    else:
        strange = ["", "  ", "# aside", "\t#", "end", "p 0 0 0", "quit now", "x" * 4097]
        return draw.choice(strange + ["\r"] * (first == 0))
    return " ".join(words)


def command(draw, without):
    """The lines of one command."""
    while True:
        (make,) = draw.choices([make for _, make in MAKERS], [often for often, _ in MAKERS])
        lines = make(draw, draw.choice(["", "", " lazy"]))
        verb, *words = lines[0].split()
        has_own = verb == "scan" and len(words) > 9
        if verb not in without and not (has_own and "own" in without):
            return lines


def script(draw, without=()):
    """A script's bytes. It has none of these commands; `own` are a scan's own log-odds.

    While there are commands that it may not have, each line begins with a known word.
    """
    lines = [it for _ in range(draw.randint(3, 40)) for it in command(draw, without)]
    if draw.random() < 0.3:
        for _ in range(draw.randint(1, 4)):
            at = draw.randrange(len(lines))
            lines[at] = spoiled(draw, lines[at], int(bool(without)))
    if draw.random() < 0.1:
        lines.insert(draw.randrange(len(lines)), "quit")
    ends = draw.choice(["\n", "\n", "\r\n"])
    text = ends.join(lines) + draw.choice([ends, "\n", "", "" if without else "\r"])
    return text.encode()
