#!/usr/bin/env python3
"""Makes the libraries that C links of the archive that the kit builds of a static library.

    tools/build/link_library.py ARCHIVE NAME FOLDER

writes FOLDER/libNAME.a, FOLDER/libNAME.so.1 and the link FOLDER/libNAME.so. Both have what calls
the heap of the C library. The shared one shows the names that begin with octofix_ and no other.
The kit alone is needed for that, and no C compiler.
"""
import os
import subprocess
import sys
import tempfile
from pathlib import Path

import ending
from unproved import kit_folder

SHOWN = "{ global: octofix_*; local: *; };\n"


def make_shared(kit, archive, name, out):
    with tempfile.NamedTemporaryFile("w", suffix=".map") as shown:
        shown.write(SHOWN)
        shown.flush()
        words = [kit / "toolchain/bin/ld.lld", "-shared", "-o", out, "-soname", f"lib{name}.so.1"]
        words += ["--version-script", shown.name, *"-z defs -z relro -z now --gc-sections".split()]
        words += ["--whole-archive", archive, "--no-whole-archive", kit / "c/liblibc_c.a"]
        words += [kit / "toolchain/lib" / it for it in ("libgcc.a", "libc.so.6")]
        subprocess.run(words, check=True)


def make_static(kit, archive, out):
    out.unlink(missing_ok=True)
    words = [kit / "toolchain/bin/llvm-ar", "qcsL", out, archive, kit / "c/liblibc_c.a"]
    subprocess.run(words, check=True)


def main(archive, name, folder):
    kit, folder = kit_folder(), Path(folder)
    folder.mkdir(parents=True, exist_ok=True)
    make_static(kit, archive, folder / f"lib{name}.a.new")
    make_shared(kit, archive, name, folder / f"lib{name}.so.1.new")
    for it in ("a", "so.1"):
        os.replace(folder / f"lib{name}.{it}.new", folder / f"lib{name}.{it}")
    link = folder / f"lib{name}.so"
    link.unlink(missing_ok=True)
    link.symlink_to(f"lib{name}.so.1")


if __name__ == "__main__":
    if len(sys.argv) != 4:
        sys.exit(__doc__)
    with ending.silent():
        main(*sys.argv[1:])
