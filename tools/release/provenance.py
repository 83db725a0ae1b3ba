"""What is proved of the bytes of a release, and how that is checked."""

import hashlib

# The files that the kit builds, below a prefix.
BUILT = (
    "libexec/octomap/octomap", "lib/liboctofix.so.1", "lib/liboctofix.a",
    "share/octofix/web/octofix.wasm",
)  # fmt: skip
HEAD = """\
octofix {version}: where these bytes come from, and what is proved of them

sources     commit {commit}{changes}
            tree   {tree}
kit         {kit}
            compiler {compiler}
logic       {logic}

{sums}

The module of the Python package (octofix/_native.abi3.so) isn't the kit's: {tools} made it.

{module}
"""
PROVED = """\
The kit builds a program or a library only where it has proved each function of it and of the crates
below it, and writes the number of the logic by which it proved into the section .comment:

    readelf -p .comment lib/liboctofix.so.1      # rattle logic={logic:.16}..

Who makes a file can write such a line too, so it is a label and no seal. Whoever has the kit, and
that compiler with those headers for the module, makes the same bytes, in any folder, of a clone of
that commit:

    git rev-parse HEAD^{{tree}}          # {tree}
    rt version                         # {kit}
    tools/check_release RELEASE        # proves and builds all of it, and compares each byte

That takes some minutes. Where another zlib or xz packs the archives, it compares what is in them.

What the proofs say stands in PROMISES.md among the documents: each function is safe, returns and
meets its contract; for every script the program writes what the definitions answer; and of each
function of the library it is proved what it answers and what it leaves in the map.
"""
UNPROVED = """\
NOTHING OF THIS IS PROVED. Program and library were built of these sources without proof, with
run-time checks in them, to try how a release is installed. They end by SIGILL where a check fails.
"""
TAIL = """\
The proofs leave out, and tests alone look at: what joins the program to real files and pipes, the
headers for C and C++, the Python package with its tools, that several threads may ask a map at
once, and that there is memory enough. Trusted are the kit with its prover and compilers, LLVM, the
linker, the C code of the kit that calls the system and the heap (libos_c.a, liblibc_c.a), and the C
library. octofix.wasm is the proved library's own module, compiled for wasm64: trusted is besides
that LLVM does so rightly, with octofix's own heap (host.c), and tests compare it with the library.

The license of octofix is MIT (LICENSE). Program and library have code of the kit in them, of its
std and of that C code, with which no license comes.
"""


def text(release, prefix):
    """The text of PROVENANCE.txt, for what is installed under this prefix."""
    sums = [f"{hashlib.sha256((prefix / it).read_bytes()).hexdigest()}  {it}" for it in BUILT]
    facts = {
        "version": release.version,
        "commit": release.commit,
        "tree": release.tree,
        "changes": ", and CHANGES THAT NO COMMIT HAS" if release.is_changed else "",
        "kit": release.kit,
        "compiler": release.compiler,
        "logic": release.logic or "none: NOT PROVED",
        "sums": "\n".join(sums),
        "tools": release.module_tools,
        "module": f"{release.module_sum}  _native.abi3.so",
    }
    middle = PROVED if release.logic else UNPROVED
    return "\n".join([HEAD.format(**facts), middle.format(**facts), TAIL])
