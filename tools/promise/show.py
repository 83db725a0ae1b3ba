#!/usr/bin/env python3
"""Prints what a public call promises: its clauses, and all definitions behind them in reading
order, each before those that it is made of, with their comments and the file each stands in.

    tools/promise/show.py                           the clause `answer` of the program's call, `run`
    tools/promise/show.py --all                     all clauses of `run`
    tools/promise/show.py oct_map OccMap::edit      all clauses of another call
    tools/promise/show.py oct_map OccMap::edit full one of them

The last line says how many definitions there are, of how many lines (their comments not counted),
in how many crates. Names of the kit are left out, and types of the code are printed as they are.
"""
import argparse
import re
import signal
import sys

from definitions import CRATES, Item, Unresolved, read_rust, scope_of


def call_of(crate, path):
    """A public call by its crate and name: what stands before its body."""
    owner, _, name = path.rpartition("::")
    head = rf'( *)pub (?:\w+ |"C" )*fn {name}\b'
    if owner:
        head = " " + head
    for file in sorted((CRATES / crate / "src").rglob("*.rt")):
        scope, within = scope_of(file), not owner
        for at, line in enumerate(scope.lines):
            if owner and line.startswith("impl"):
                within = re.search(rf"\b{owner}\b", line)
            if within and re.match(head, line):
                return read_rust(scope, r"( *)pub", path, "{", at)
    raise Unresolved(f"{crate}: no public call {path}")


def clauses_of(call, wanted):
    """The call with its clauses, or with the one of that name, as an item."""
    lines = [line for line in call.lines if not line.strip().startswith("//")]
    head, *clauses = re.split(r"\n(?= +(?:requires|ensures)\b)", "\n".join(lines).rstrip(" {\n"))
    if wanted:
        clauses = [text for text in clauses if re.match(rf" +(requires|ensures) {wanted}\b", text)]
    if not clauses:
        raise Unresolved(f"{call.scope.place}: {call.name} has no such clause")
    return Item(call.name, call.scope, call.comment, [head, *clauses])


def members_of(call):
    """What clauses say of a type parameter: `S.left` is what the trait that S has calls `left`."""
    traits = dict(re.findall(r"\b([A-Z]\w*): (\w+)", call.lines[0]))
    cited = re.findall(r"\b([A-Z])\.(\w+)", "\n".join(call.lines[1:]))
    for parameter, member in dict.fromkeys(cited):
        trait = traits.get(parameter)
        crate, _ = call.scope.brought.get(trait, (call.scope.crate, trait))
        for file in sorted((CRATES / crate / "src").rglob("*.rt")):
            scope = scope_of(file)
            if any(line.startswith(f"pub trait {trait}") for line in scope.lines):
                yield read_rust(scope, rf"^( +)ghost {member}:", f"{trait}.{member}", "}")


def cited_by(call):
    """What the clauses of a call cite, without what its signature does."""
    names = re.compile(r"^ +(requires|ensures)( \w+)? \{")
    found = {}
    for clause in call.lines[1:]:
        text = names.sub("", clause)
        for item in call.scope.items_in(text, call.bound_in(text)):
            found[item] = True
    return list(found) + list(members_of(call))


def reading_order(first):
    """All items behind these, each before those that it cites, but where two cite each other."""
    order, seen = [], set()

    def visit(items):
        for item in reversed(items):
            if item not in seen:
                seen.add(item)
                visit(item.cited())
                order.append(item)

    sys.setrecursionlimit(10000)
    visit(first)
    return order[::-1]


def promise(crate, path, clause=None):
    """A call with its clauses, and all items behind them."""
    call = clauses_of(call_of(crate, path), clause)
    return call, reading_order(cited_by(call))


def count(items):
    """How many definitions, lines of them, and crates, and how many parts of the code."""
    definitions = [item for item in items if not item.is_code]
    return (len(definitions), sum(len(item.lines) for item in definitions),
            len({item.scope.crate for item in definitions}), len(items) - len(definitions))


def show(item, mark):
    print(f"{mark} {item.scope.place}")
    print("\n".join([*item.comment, *item.lines]), end="\n\n")


def main():
    signal.signal(signal.SIGPIPE, signal.SIG_DFL)    # as for `show.py | head`
    parser = argparse.ArgumentParser(description=__doc__.split("\n\n")[0])
    parser.add_argument("crate", nargs="?", default="oct_tasks")
    parser.add_argument("call", nargs="?", default="run", help="run, or OccMap::edit")
    parser.add_argument("clause", nargs="?", help="one clause alone")
    parser.add_argument("--all", action="store_true", help="all clauses of run")
    options = parser.parse_args()
    is_run = (options.crate, options.call) == ("oct_tasks", "run")
    clause = options.clause or ("answer" if is_run and not options.all else None)
    try:
        call, items = promise(options.crate, options.call, clause)
    except Unresolved as error:
        sys.exit(f"promise: {error}")
    show(call, "//")
    for item in items:
        show(item, "//" if item.is_code else "--")
    print("{} definitions of {} lines in {} crates, and {} items of the code".format(*count(items)))


if __name__ == "__main__":
    main()
