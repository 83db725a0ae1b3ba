"""A session: the replies to a script, and the files that it leaves."""
import bt_file
import snapshot
from script import Faulty, lines
from texts import Refused
from world import World

MOST_POINTS = 1_000_000
MOST_FILE = 2**30


def grouped(words, *sizes):
    """The words in groups of these sizes, each a tuple, and then the rest as a list."""
    found = []
    for size in sizes:
        found.append(tuple(words[:size]))
        words = words[size:]
    return [*found, list(words)]


class Block:
    """The lines of a scan from its head on: its points, or its first fault."""

    def __init__(self, head):
        self.start, self.points, self.fault, self.words = head.number, [], None, None
        self.hear(head, lambda: head.command(False)[1])

    def hear(self, line, read):
        """What a line says, unless it, or one before it, is at fault."""
        if self.fault is None and line.is_long:
            self.fault = f"30 LongLine line {line.number}"
        if self.fault is not None:
            return
        try:
            found = read()
        except Faulty as column:
            self.fault = f"29 Syntax line {line.number} column {column}"
            return
        if self.words is None:
            self.words = found
        elif len(self.points) == MOST_POINTS:
            self.fault = f"32 TooManyPoints line {line.number}"
        else:
            self.points.append(tuple(found))

    def closes(self, line):
        return not line.is_long and [it for it, _ in line.words()] == [b"end"]

    def done(self, world, has_end):
        if self.fault is not None:
            raise Refused(self.fault)
        if not has_end:
            raise Refused(f"31 OpenScan line {self.start}")
        place, turn, (reach,), rest = grouped(self.words, 3, 4, 1)
        is_lazy = rest[-1:] == ["lazy"]
        own_odds = tuple(rest[:2]) if len(rest) > 1 else None
        return world.scan(place, turn, reach, own_odds, is_lazy, self.points)


class Session:
    def __init__(self, world, files):
        self.world, self.files, self.text, self.was_refused = world, files, [], False

    def file(self, name):
        if name not in self.files:
            raise Refused("33 NoFile")
        if len(self.files[name]) > MOST_FILE:
            raise Refused("34 FileTooLarge")
        return self.files[name]

    def same_edge(self, edge):
        if edge != self.world.edge:
            raise Refused(f"35 OtherResolution file {edge} session {self.world.edge}")

    def save(self, name):
        self.files[name] = bt_file.of_classes(self.world.edge, self.world.classes())
        return f"saved {len(self.files[name])}"

    def load(self, name):
        edge, root, size = bt_file.read(self.file(name))
        self.same_edge(edge)
        self.world.make_room(0 if root is None else bt_file.records(root), groups=0)
        value = [None, self.world.odds.min, self.world.odds.max]
        self.world.replace({it: value[c] for it, c in bt_file.classes_of(root).items()})
        return f"loaded {size}"

    def snapshot(self, name):
        self.files[name] = snapshot.text(self.world)
        return f"saved {len(self.files[name])}"

    def restore(self, name):
        read = snapshot.Reading(self.file(name), self.world.odds)
        self.same_edge(read.edge)
        self.world.make_room(read.groups, groups=0)
        self.world.replace(read.values)
        if read.version == 2:
            self.world.odds, self.world.window = read.odds, read.window
        return f"restored groups {read.groups}"

    def alone(self, verb):
        """A command without words after it."""
        world = self.world
        if verb == "counts":
            return world.counts()
        if verb == "changes":
            return world.changes()
        if verb == "clear":
            world.replace({})
        elif verb == "maxlik":
            world.likely()
        elif verb == "refresh":
            world.is_stale = False
        elif verb in ("track", "untrack"):
            world.marked = world.classes() if verb == "track" else None
        elif verb == "nolimit":
            world.window = None
        return "ok"

    def done(self, verb, words):
        """The reply to a command outside a block."""
        if not words:
            return self.alone(verb)
        if verb in ("save", "load", "snapshot", "restore"):
            return getattr(self, verb)(*words)
        point, rest = grouped(words, 3)
        if verb in ("hit", "miss", "add", "set", "forget"):
            is_lazy = rest[-1:] == ["lazy"]
            return self.world.edit(point, verb, rest[:-1] if is_lazy else rest, is_lazy)
        if verb == "get":
            return self.world.get(point, *rest)
        low, high, rest = grouped(words, 3, 3)
        if verb == "box":
            return self.world.edit_box(low, high, rest[0], rest[1:])
        if verb == "list":
            return self.world.list(low, high, *rest)
        if verb == "cast":
            return self.world.cast(low, high, rest == ["ignore"])
        self.world.window = self.world.corners(low, high)
        return "ok"

    def answer(self, reply):
        try:
            self.text.append(reply())
        except Refused as refusal:
            self.text.append(f"refused {refusal}")
            self.was_refused = True

    def alone_line(self, line):
        """The reply to a line outside a block."""
        if line.is_long:
            raise Refused(f"30 LongLine line {line.number}")
        try:
            verb, words = line.command(False)
        except Faulty as column:
            raise Refused(f"29 Syntax line {line.number} column {column}") from None
        return self.done(verb, words)

    def run(self, data, max_bytes=2**40):
        """Answers a script, and the status is 0, 1 or 4."""
        is_cut = len(data) > max_bytes
        data = data[:max_bytes]
        whole = data[: data.rfind(b"\n") + 1] if is_cut else data
        block = None
        for line in lines(whole):
            if block is not None:
                if block.closes(line):
                    self.answer(lambda: block.done(self.world, True))
                    block = None
                elif not line.has_no_reply():
                    block.hear(line, lambda: line.command(True)[1])
            elif line.is_quit():
                return int(self.was_refused)
            elif line.opens_scan():
                block = Block(line)
            elif not line.has_no_reply():
                self.answer(lambda: self.alone_line(line))
        if is_cut:
            return 4
        if block is not None:
            self.answer(lambda: block.done(self.world, False))
        return int(self.was_refused)


def session(data, edge, files, odds, limits, max_bytes):
    it = Session(World(edge, odds, limits), files)
    status = it.run(data, max_bytes)
    return it, status, "".join(f"{reply}\n" for reply in it.text).encode()
