#!/usr/bin/env python3
"""Compares octofix.h with what crates/octofix exports, so that the two can't drift apart.

    check_header.py [HEADER [CRATE]]

Fails where a function stands on one side alone, or has other parameters (their order, names, types
and constness), where a struct has other fields, sizes or offsets, where a code, an event, a rule, a
kind of change, what bounds are sought of or a cell of a grid stands on one side alone or has
another number, or where a code has another name in the header than in the sources. What the sources
export is written as a file in C, which a C compiler has to accept after the header: declarations
that must be those of the header, and assertions on its structs.
"""
import re
import subprocess
import sys
import tempfile
from pathlib import Path

HERE = Path(__file__).resolve().parent
ROOT = HERE.parent.parent
HEADER = Path(sys.argv[1] if len(sys.argv) > 1 else HERE / "octofix.h")
SOURCES = Path(sys.argv[2] if len(sys.argv) > 2 else ROOT / "crates/octofix") / "src"
CELLS = ROOT / "crates/oct_export/src/cells.rt"

NUMBERS = {"i8": "int8_t", "i16": "int16_t", "u16": "uint16_t", "i32": "int32_t", "u32": "uint32_t",
           "i64": "int64_t", "u64": "uint64_t", "u8": "uint8_t", "usize": "size_t", "bool": "bool"}
SIZES = {"i8": 1, "i16": 2, "u16": 2, "i32": 4, "u32": 4, "i64": 8, "u64": 8, "u8": 1, "usize": 8,
         "bool": 1}
STRUCTS = {"PointNm": "point", "VoxelKey": "key", "VoxelBox": "box", "SegmentNm": "segment",
           "PoseNm": "pose", "LogOdds": "odds", "MapLimits": "limits", "Settings": "settings",
           "PointEdit": "point_edit", "ScanOptions": "scan_options", "Counted": "counted",
           "TreeCounts": "counts", "LeastTree": "least_tree", "KnownBlock": "block",
           "PointAnswer": "answer", "CastStop": "stop", "ChangedVoxel": "change",
           "Details": "details"}
# A text that stays, as it lies in memory.
TEXT, TEXT_FIELDS = "&[u8]", [("at", "*const u8"), ("length", "usize")]
# A handle that a call may change, and one that it can't.
HANDLES = {"Octofix": "octofix_map", "Shared": "const octofix_map"}
# A clause that says so of a handle that a call takes as one that it may change: it is the same
# afterwards, with its map and the place where that stands.
SAME = re.compile(r"\{\s*(\w+)\.new\s*≡\s*\1\.old\s*\}")


class Differs(Exception):
    """The header isn't that of the sources."""


def without_comments(text):
    return re.sub(r"/\*.*?\*/|//[^\n]*", " ", text, flags=re.S)


def c_type(name):
    if name in NUMBERS:
        return NUMBERS[name]
    if name in STRUCTS:
        return "octofix_" + STRUCTS[name]
    raise Differs(f"the sources export the type {name}, which octofix.h doesn't know")


def parameters(name, kind, is_same):
    """What a parameter of the sources is in C: pairs of a type and a name."""
    kind = re.sub(r"'\w+\s*|<'\w+>", "", kind).strip()
    if kind == "Global":
        return []
    pointed = re.fullmatch(r"&\s*(mut\s+)?(.+)", kind)
    if not pointed:
        return [(c_type(kind), name)]
    target = pointed[2].strip()
    if target in HANDLES:
        const = "const " if is_same and target == "Octofix" else ""
        return [(const + HANDLES[target] + " *", name)]
    const = "" if pointed[1] else "const "
    if target == TEXT:
        return [(const + "octofix_text *", name)]
    many = re.fullmatch(r"\[(.+)\]", target)
    if many:
        return [(const + c_type(many[1].strip()) + " *", name), ("size_t", None)]
    return [(const + c_type(target) + " *", name)]


def exports(text):
    """The exported functions of the sources: their parameters in C, by their names."""
    found = {}
    form = re.compile(r'pub extern "C" fn (\w+)\s*(?:<[^>]*>)?\s*\((.*?)\)\s*->\s*u32(.*?)\n[{}]|'
                      r'pub extern "C" fn (\w+)', re.S)
    for it in form.finditer(text):
        if it[4]:
            raise Differs(f"{it[4]} doesn't answer a u32")
        given, same = [], SAME.findall(it[3])
        for one in filter(None, map(str.strip, it[2].split(","))):
            name, kind = one.split(":", 1)
            given += parameters(name.strip(), kind.strip(), name.strip() in same)
        found[it[1]] = given
    return found


def declared(header):
    """The functions of the header: the names of their parameters, by their own."""
    found = {}
    for name, given in re.findall(r"uint32_t (\w+)\s*\((.*?)\)\s*;", header, re.S):
        found[name] = [re.search(r"(\w+)$", one.strip())[1] for one in given.split(",")]
    return found


def structs(text):
    """The structs of the sources: pairs of a field and its type, by their names."""
    found = {}
    form = r"#\[repr\(C\)\][^{]*?pub struct (\w+)[^{]*\{(.*?)\n\}"
    for name, body in re.findall(form, text, re.S):
        fields = re.findall(r"^\s*(?:pub(?:\(crate\))? )?(\w+): ([^,]+),", body, re.M)
        found[name] = [(field, kind.strip()) for field, kind in fields]
    return found


def layout(name, known):
    """The size and the alignment of a type, and for a struct the offset and size of each field."""
    if name in SIZES:
        return SIZES[name], SIZES[name], []
    if name.startswith("*"):
        return 8, 8, []
    if name == "Global":
        return 0, 1, []
    end, widest, places = 0, 1, []
    for field, kind in known[re.sub(r"<.*>", "", name)]:
        size, align, _ = layout(kind, known)
        end = -(-end // align) * align
        places.append((field, end, size))
        end, widest = end + size, max(widest, align)
    return -(-end // widest) * widest, widest, places


def assertions(rust, c, known, fields=None):
    """What the sources say of a struct of the header."""
    size, align, places = layout(rust, known)
    yield f'_Static_assert(sizeof({c}) == {size}, "size of {c}");'
    yield f'_Static_assert(_Alignof({c}) == {align}, "alignment of {c}");'
    for field, offset, length in places:
        field = (fields or {}).get(field, field)
        yield f'_Static_assert(offsetof({c}, {field}) == {offset}, "offset of {c}.{field}");'
        yield f'_Static_assert(sizeof((({c} *)0)->{field}) == {length}, "size of {c}.{field}");'


def header_fields(header):
    """The fields of the header's structs, in their order, by their names."""
    found = {}
    for body, name in re.findall(r"typedef struct \w+ \{(.*?)\} (\w+);", header, re.S):
        words = [one.strip() for one in body.split(";") if one.strip()]
        found[name] = [re.search(r"(\w+)$", part.strip())[1]
                       for one in words for part in one.split(",")]
    return found


def check_names(mine, theirs):
    """The functions and the names of their parameters."""
    for name in sorted(mine.keys() ^ theirs.keys()):
        side = "the sources" if name in mine else "octofix.h"
        raise Differs(f"{name} stands in {side} alone")
    for name, given in mine.items():
        wanted = [it for _, it in given]
        if len(wanted) != len(theirs[name]):
            raise Differs(f"{name} takes {len(wanted)} parameters, and not {len(theirs[name])}")
        for came, one in zip(theirs[name], wanted):
            # the length of a row has a name of its own in C
            if one is None and came not in ("count", "room", "length"):
                raise Differs(f"{name} takes the length of a row, and not {came}")
            # a handle is called a map in C
            if one is not None and {came, one} not in ({one}, {"length", "len"}, {"map", "handle"}):
                raise Differs(f"{name} takes {one}, and not {came}")


def check_fields(known, header):
    fields = header_fields(header)
    for rust, name in STRUCTS.items():
        mine = [field for field, _ in known[rust]]
        theirs = fields.get("octofix_" + name)
        if mine != theirs:
            raise Differs(f"octofix_{name} has the fields {theirs}, and {rust} has {mine}")


def numbers(pairs):
    """Names as constants have them, each with its number."""
    found = {}
    for name, number in pairs:
        name = re.sub(r"(?<=[a-z])(?=[A-Z])", "_", name).upper()
        if found.setdefault(name, int(number)) != int(number):
            raise Differs(f"{name} is {found[name]} and {number} in the sources")
    return found


def body_of(text, name):
    """The body of a function of the sources."""
    found = re.search(rf"fn {name}\(.*?\n\{{\n(.*?)\n\}}\n", text, re.S)
    if not found:
        raise Differs(f"the sources have no function {name}")
    return found[1]


def numbers_of_sources(text):
    """The numbers of codes, events, rules, kinds of changes, what bounds are sought of and cells,
    in this order, by the names that the header has."""
    events = re.findall(r"if event == (\d+) \{\s*return Ok\(Event::(\w+)",
                        body_of(text, "event_of"))
    rules = re.findall(r"if rule == (\d+) \{\s*return Ok\(Rule::(\w+)", body_of(text, "rule_of"))
    sought = re.findall(r"(\d+) => Some\(Sought::(\w+)\)", body_of(text, "sought_numbered"))
    codes = re.findall(r"\b(?:Refusal|MapFault|BtFault)::(\w+)(?: \{ \.\. \})? => (\d+)", text)
    return [
        numbers(codes + re.findall(r"pub const ([A-Z_]+): u32 = (\d+);", text)),
        numbers((name, number) for number, name in events),
        numbers((name, number) for number, name in rules),
        numbers(re.findall(r"Kind::(\w+) => (\d+)", body_of(text, "kind_number"))),
        numbers((name + "_VOXELS", number) for number, name in sought),
        numbers(("Cell" + name, number) for name, number in re.findall(
            r"Class::(\w+) => (-?\d+)", body_of(CELLS.read_text(), "cell_of"))),
    ]


def numbers_of_header(header):
    """The same of the header."""
    events, rules, kinds, sought, cells, codes = (
        numbers(re.findall(r"\bOCTOFIX_(\w+)\s*=\s*(-?\d+)", body))
        for body in re.findall(r"\benum \{(.*?)\};", header, re.S))
    return [codes, events, rules, kinds, sought, cells]


def check_numbers(text, header):
    """The numbers that are passed and answered, against the sources."""
    mine, theirs = numbers_of_sources(text), numbers_of_header(header)
    for here, there in zip(mine, theirs):
        for name in sorted(here.keys() | there.keys()):
            if here.get(name) != there.get(name):
                raise Differs(f"OCTOFIX_{name} is {there.get(name)}, and {here.get(name)} in the "
                              "sources")
    check_names_of_codes(text, theirs[0])


def check_names_of_codes(text, codes):
    """The names that the library has for codes, against those of the header."""
    rows = re.findall(r'\brow!\((\w+), b"(\w+)\\0"\)', text)
    named = numbers((name, codes.get(number, number)) for number, name in rows)
    for name in codes.keys() - {"DONE"}:
        if named.get(name) != codes[name]:
            raise Differs(f"OCTOFIX_{name} is {codes[name]}, and has another name in the sources")


def compile_with_header(lines):
    with tempfile.TemporaryDirectory() as room:
        file = Path(room) / "exports.c"
        file.write_text("\n".join([f'#include "{HEADER.resolve()}"', *lines, ""]))
        ran = subprocess.run(["cc", "-std=c11", "-Wall", "-Wextra", "-Werror", "-fsyntax-only",
                              file], capture_output=True, text=True, check=False)
    if ran.returncode:
        raise Differs(ran.stderr)


def main():
    sources = sorted(SOURCES.glob("*.rt"))
    if not sources:
        raise Differs(f"there are no sources in {SOURCES}")
    text = without_comments("\n".join(it.read_text() for it in sources))
    header = without_comments(HEADER.read_text())
    mine, known = exports(text), structs(text)
    check_names(mine, declared(header))
    check_fields(known, header)
    check_numbers(text, header)
    lines = list(assertions("Octofix", "octofix_map", known, {"slot": "at"}))
    if "Shared" in known:
        lines += assertions("Shared", "octofix_map", known, {"slot": "at"})
    for rust, name in STRUCTS.items():
        lines += assertions(rust, "octofix_" + name, known)
    lines += assertions("Text", "octofix_text", {"Text": TEXT_FIELDS})
    for name, given in mine.items():
        lines.append(f"uint32_t {name}({', '.join(kind for kind, _ in given)});")
    compile_with_header(lines)
    print(f"octofix.h is that of the sources: {len(mine)} functions, {len(STRUCTS) + 2} structs")


if __name__ == "__main__":
    try:
        main()
    except Differs as fault:
        sys.exit(f"octofix.h: {fault}")
