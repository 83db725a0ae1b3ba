"""The tarball: what ./octomap install puts under a prefix, wherever that is unpacked."""

from pathlib import Path

from packing import Tree, tar_gz

README = """\
octofix {version}, for Linux on x86-64 (x86-64-v2: nearly any processor since 2009)

The library needs glibc {library} or newer, the program glibc {program} or newer, and the tools
Python 3.9 or newer with numpy. Nothing is to be installed: this folder works where it lies.

    export PATH=$PWD/bin:$PATH                          # octomap, octofix
    export PKG_CONFIG_PATH=$PWD/lib/pkgconfig           # pkg-config --cflags --libs octofix
    cmake -DCMAKE_PREFIX_PATH=$PWD ..                   # find_package(octofix)
    export PYTHONPATH=$PWD/lib/python3                  # import octofix
    export MANPATH=$PWD/share/man:                      # man octofix, man octomap

share/doc/octofix has the documents. PROVENANCE.txt says what is proved of these bytes, and how that
is checked; `sha256sum -c FILES.sha256` says whether they are whole.
"""
# For FetchContent and add_subdirectory.
CMAKE = """\
# Adds octofix::octofix and octofix::static, as find_package(octofix) does.
cmake_minimum_required(VERSION 3.13)
project(octofix VERSION {number} LANGUAGES NONE)
include("${{CMAKE_CURRENT_LIST_DIR}}/lib/cmake/octofix/octofixConfig.cmake")
set_target_properties(octofix::octofix octofix::static PROPERTIES IMPORTED_GLOBAL TRUE)
"""


def make(release, prefix, out):
    """Packs what is installed under a prefix, and answers the archive's name."""
    tree, words = Tree.of(prefix), release.words()
    tree.put("LICENSE", release.read("LICENSE"))
    tree.put("PROVENANCE.txt", release.provenance)
    tree.put("README", README.format(**words))
    tree.put("CMakeLists.txt", CMAKE.format(**words))
    tree.put("FILES.sha256", tree.sums())
    top = f"octofix-{release.version}-linux-x86_64"
    Path(out, f"{top}.tar.gz").write_bytes(tar_gz(tree, top, release.time))
    return f"{top}.tar.gz"
