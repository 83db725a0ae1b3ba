"""Lines of a script, and the grammar: which command a line is, or the column of its fault."""
import re

import texts
from texts import literally

MOST_LINE = 4096
BLANKS = b" \t"

POINT = [texts.metres] * 3
LAZY = literally("lazy")
CHANGES = [
    [literally("hit", "miss", "forget")],
    [literally("add", "set"), texts.number],
]
HEAD = [*POINT, *[texts.turn] * 4, texts.reach]
OWN = [texts.own_hit, texts.own_miss]

# The words that may stand after each first word, in each of its forms.
FORMS = {
    **{verb: [POINT, [*POINT, LAZY]] for verb in ("hit", "miss", "forget")},
    **{verb: [[*POINT, texts.number], [*POINT, texts.number, LAZY]] for verb in ("add", "set")},
    "box": [[*POINT, *POINT, *change] for change in CHANGES],
    "get": [[*POINT, texts.depth]],
    "list": [[*POINT, *POINT, texts.depth]],
    "cast": [[*POINT, *POINT], [*POINT, *POINT, literally("ignore")]],
    "limit": [[*POINT, *POINT]],
    "scan": [HEAD, [*HEAD, LAZY], [*HEAD, *OWN], [*HEAD, *OWN, LAZY]],
    **{verb: [[texts.name]] for verb in ("save", "load", "snapshot", "restore")},
}
ALONE = "refresh prune counts maxlik clear track untrack changes nolimit quit".split()
FORMS |= {verb: [[]] for verb in ALONE}
INSIDE = {"p": [POINT], "end": [[]]}


class Faulty(Exception):
    """The column of the first word that can't stand in a line."""


class Line:
    """A line with its number: its bytes without its end, and whether it had one."""

    def __init__(self, number, data, has_ended):
        self.number, self.is_long = number, len(data) > MOST_LINE
        self.data = data.removesuffix(b"\r") if has_ended else data

    def words(self):
        """Each word with its column."""
        return [(it.group(), it.start() + 1) for it in re.finditer(rb"[^ \t]+", self.data)]

    def has_no_reply(self):
        return not self.is_long and self.data.strip(BLANKS)[:1] in (b"", b"#")

    def opens_scan(self):
        return not self.is_long and self.words()[:1] and self.words()[0][0] == b"scan"

    def is_quit(self):
        return not self.is_long and [it for it, _ in self.words()] == [b"quit"]

    def command(self, inside):
        """The first word and what is read of the others."""
        (first, column), *words = self.words()
        forms = (INSIDE if inside else FORMS).get(first.decode("latin-1"))
        if forms is None:
            raise Faulty(column)
        read = [[] for _ in forms]
        for index, (word, column) in enumerate(words):
            fitting = []
            for form, before in zip(forms, read):
                it = form[index](word) if index < len(form) else None
                if it is not None:
                    fitting.append((form, [*before, it]))
            if not fitting:
                raise Faulty(column)
            forms, read = zip(*fitting)
        for form, found in zip(forms, read):
            if len(form) == len(words):
                return first.decode(), found
        raise Faulty(len(self.data) + 1)


def lines(data):
    """The lines of a script, the last one perhaps without its end."""
    *ended, last = data.split(b"\n")
    found = [Line(number, it, True) for number, it in enumerate(ended, 1)]
    return [*found, Line(len(found) + 1, last, False)] if last else found
