#!/usr/bin/env python3
"""Makes the WebAssembly module of the library, for browsers and Node.

    tools/build/wasm.py MODULE OUT

MODULE is the LLVM module that the kit made of the library for x86-64, proved or not, as it went to
the clang of its toolchain (kept by proved.py and unproved.py). Here the same clang compiles it for
wasm64. Its code stays; around it stands what the kit has around a library that it compiles for
wasm64 by itself: each function looks whether the stack has room for it, and after a trap each
export traps. The kit's linker joins it with the host part, bindings/web/host.c, to a module that
imports nothing.
"""
import os
import re
import signal
import sys
import tempfile
from pathlib import Path

import crates
import ending
from unproved import kit_folder, must, stop

TARGET = "wasm64-unknown-unknown"
HOST = crates.ROOT / "bindings/web/host.c"
# As the kit has them for this target.
LAYOUT = "e-m:e-p:64:64-p10:8:8-p20:8:8-i64:64-i128:128-n32:64-S128-ni:1:10:20"
ATTRIBUTES = '"no-builtin-bcmp" "no-builtin-memcmp" "no-builtin-strlen" "target-cpu"="lime1"'
LOWERING = """
-expand-div-rem-bits=64 -expand-fp-convert-bits=64 -trap-unreachable -no-x86-call-frame-opt
-disable-machine-licm -disable-postra-machine-licm -sink-common-insts=false
"""
WORDS = f"""
--target={TARGET} -mcpu=lime1 -ffunction-sections -fdata-sections --no-default-config
-no-canonical-prefixes -fintegrated-cc1 -fno-crash-diagnostics -Werror -c
""".split() + [it for word in LOWERING.split() for it in ("-mllvm", word)]
OF_X86 = re.compile(r'(?:sanitize_address|"(?:frame-pointer|target-cpu|tune-cpu)"="[^"]*") ?')
FOR_X86 = ("asm sideeffect", "llvm.x86", "x86_fp80")
VECTOR = re.compile(r"<\d+ x ")
# What a module says of its proof.
COMMENT = re.compile(r'^!\d+ = !\{!"((?:rattle logic=|not proved).*)"\}$', re.M)
EXPORT = re.compile(r"^define (?!internal)(.*?)@(\w+)\((.*)\)(.*)\{$")
DECLARED = """
declare noundef zeroext i1 @__rattle_enter()
declare void @__rattle_leave()
declare void @__rattle_trap()
declare ptr @llvm.frameaddress.p0(i32 immarg)
"""
# (an export that traps leaves the mark of its start, by which the next one knows)
GUARDED = """\
define {result}@{name}({takes}) nounwind "wasm-export-name"="{name}" {ATTRIBUTES} {{
start:
  %spent = call zeroext i1 @__rattle_enter()
  br i1 %spent, label %trap, label %run

trap:
  call void @__rattle_trap()
  unreachable

run:
  %answer = call {result}@"{name} inside"({takes})
  call void @__rattle_leave()
  ret i32 %answer
}}
"""
STACK = """\
  %stack.frame = call ptr @llvm.frameaddress.p0(i32 0)
  %stack.place = ptrtoint ptr %stack.frame to i64
  %stack.over = icmp slt i64 %stack.place, 16
  br i1 %stack.over, label %stack.trap, label %start

stack.trap:
  call void @llvm.trap()
  unreachable

start:"""


def for_wasm(text):
    """The text of a module for x86-64 as one for wasm64, with the looks and guards of the kit."""
    if any(it in text for it in FOR_X86) or VECTOR.search(text):
        stop("this kit makes code in its module that is for x86-64 alone")
    text = re.sub(r"^target datalayout = .*$", f'target datalayout = "{LAYOUT}"', text, flags=re.M)
    text = re.sub(r"^target triple = .*$", f'target triple = "{TARGET}"', text, flags=re.M)
    text = re.sub(r"^(attributes #\d+ = \{) (.*)\}$", with_attributes, text, flags=re.M)
    lines, exports = [], []
    functions = iter(text.splitlines())
    for line in functions:
        found = EXPORT.match(line)
        if found:
            exports.append(guarded(found))
            line = inside(found)
        lines.append(line)
        if line.startswith("define "):
            lines += with_look(functions)
    if not exports:
        stop("the module exports nothing")
    return "\n".join([*lines, *exports, DECLARED])


def with_attributes(group):
    """A group of attributes with those of the other target. (Those of declarations stay.)"""
    head, words = group.groups()
    if "target-cpu" in words:
        words = f"{OF_X86.sub('', words)}{ATTRIBUTES} "
    else:
        words = OF_X86.sub("", words) or "nounwind "
    return f"{head} {words}}}"


def inside(export):
    """The head of an export, made a function of the module alone."""
    result, name, takes, rest = export.groups()
    return f'define internal {result}@"{name} inside"({takes}) noinline{rest}{{'


def guarded(export):
    result, name, takes, _ = export.groups()
    takes = re.sub(r"%c(\d+)", r"%a\1", takes)
    return GUARDED.format(result=result, name=name, takes=takes, ATTRIBUTES=ATTRIBUTES)


def with_look(lines):
    """The first block of a function: a look at the stack stands before it, and before that what
    the function takes of it, as only a function's first block may take it once."""
    if next(lines) != "start:":
        stop("this kit begins its functions in another way")
    takes, rest = [], []
    for line in lines:
        (takes if " = alloca " in line else rest).append(line)
        if not line or line == "}":
            break
    return [*["begin:"], *takes, STACK, *rest]


def with_narrow_table(module):
    """The module with a table of 32 bits in place of one of 64, which Node 20 doesn't know: the
    table is empty, so that nothing tells them apart."""
    data, at, sections = bytearray(module), 8, {}
    while at < len(data):
        kind, (size, body) = data[at], number_at(data, at + 1)
        sections[kind] = body
        at = body + size
    if 9 in sections or 4 not in sections:
        stop("the module uses its table, or has none")
    many, table = number_at(data, sections[4])
    if many != 1:
        stop("the module has more tables than one")
    data[table + 1] &= ~4
    return bytes(data)


def section(comment):
    """What the module says of its proof, as a section of its own like that of an object file."""
    content = b"\x08.comment" + comment
    return bytes([0, len(content)]) + content


def number_at(data, at):
    """A number of the module, and where it ends."""
    value = shift = 0
    while True:
        value |= (data[at] & 127) << shift
        at, shift = at + 1, shift + 7
        if data[at - 1] < 128:
            return value, at


def make(kit, module, out):
    clang = kit / "toolchain/bin/clang"
    with tempfile.TemporaryDirectory(prefix="octomap-wasm-") as room:
        room = Path(room)
        words = "--target=x86_64-unknown-linux-gnu -O0 -Xclang -disable-llvm-passes -S -emit-llvm"
        must(clang, *words.split(), "-x", "ir", module, "-o", room / "module.ll")
        text = (room / "module.ll").read_text()
        (room / "wasm.ll").write_text(for_wasm(text))
        must(clang, *WORDS, "-O3", "-x", "ir", "wasm.ll", "-o", "module.o", cwd=room)
        words = "-O2 -std=c11 -ffreestanding -ffp-contract=off -nostdinc -Wall -Wextra".split()
        must(clang, *WORDS, *words, HOST, "-o", "host.o", cwd=room)
        must(kit / "toolchain/bin/llvm-ar", "rcs", "made.a", "module.o", "host.o", cwd=room)
        words = ["--target", TARGET, "--toolchain", kit / "toolchain", "-o", "made.wasm", "made.a"]
        must(kit / "bin/rattle-link", *words, cwd=room)
        out.parent.mkdir(parents=True, exist_ok=True)
        new = out.with_name(f"{out.name}.{os.getpid()}.new")
        comment = f"{COMMENT.search(text)[1]}\0".encode()
        new.write_bytes(with_narrow_table((room / "made.wasm").read_bytes()) + section(comment))
        os.replace(new, out)


if __name__ == "__main__":
    if len(sys.argv) != 3:
        sys.exit(__doc__)
    with ending.silent():
        signal.signal(signal.SIGTERM, lambda *_: sys.exit(143))
        make(kit_folder(), Path(sys.argv[1]).resolve(), Path(sys.argv[2]).resolve())
