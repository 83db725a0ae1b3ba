"""Debian packages of what ./octomap install puts into the layout of Debian."""

import hashlib
import os
import subprocess
import tempfile
from dataclasses import dataclass, field
from email.utils import formatdate
from fnmatch import fnmatch
from pathlib import Path

import octofix_build
from packing import EXECUTABLE, PLAIN, Tree, zipped

LIB = "usr/lib/x86_64-linux-gnu"
PYTHON = "usr/lib/python3/dist-packages"
# What no package has: the license stands in each package's copyright.
LEFT_OUT = ("usr/share/doc/octofix/LICENSE",)
CONTROL = """\
Package: {name}{source}
Version: {version}-1
Architecture: {architecture}
Maintainer: {maintainer}
Installed-Size: {size}
{relations}Section: {section}
Priority: optional
Description: occupancy octrees from range scans, exact to the voxel - {short}
 The map that a robot builds from range scans: for each voxel of a grid it
 keeps how sure it is that something is there. It is the occupancy octree of
 the OctoMap library in whole numbers{proved}.
 .
 {about}
"""
PROVED = """, and is proved to answer what a
 plain fold over each single voxel answers"""
UNPROVED = """. THIS BUILD IS NOT PROVED: it
 is there to try how the packages are installed"""
COPYRIGHT = """\
Format: https://www.debian.org/doc/packaging-manuals/copyright-format/1.0/
Upstream-Name: octofix
Comment: The program and the library are those that the kit built.

Files: *
Copyright: {holders}
License: Expat

License: Expat
{license}"""
CHANGELOG = """\
octofix ({version}-1) unstable; urgency=medium

  * Release of commit {commit}.

 -- {maintainer}  {date}
"""
COMPILE = """\
#!/bin/sh
set -e
if [ "$1" = configure ] && command -v py3compile >/dev/null; then
    py3compile -p python3-octofix
fi
"""
CLEAN = """\
#!/bin/sh
set -e
if command -v py3clean >/dev/null; then
    py3clean -p python3-octofix
fi
"""
SHARED = "liboctofix 1 liboctofix1 (>= {version})\n"
# (stripping would take .comment away, and the mark of the proof with it)
UNSTRIPPED = "unstripped-binary-or-object *"


@dataclass
class Package:
    """A package: which files of the layout it has, and what dpkg is told of it."""

    name: str
    architecture: str
    section: str
    patterns: list
    short: str
    about: str
    relations: list
    control: dict = field(default_factory=dict)
    overrides: list = field(default_factory=list)


PACKAGES = [
    Package(
        "liboctofix1", "amd64", "libs", [f"{LIB}/liboctofix.so.1"], "library",
        "This package has the shared library.",
        ["Depends: libc6 (>= {library}), sse4.2-support", "Multi-Arch: same"],
        {"shlibs": SHARED, "triggers": "activate-noawait ldconfig\n"}, [UNSTRIPPED],
    ),
    Package(
        "liboctofix-dev", "amd64", "libdevel",
        ["usr/include/*", f"{LIB}/liboctofix.*", f"{LIB}/pkgconfig/*", f"{LIB}/cmake/*"],
        "headers", "This package has the headers for C and C++ and the static library.",
        ["Depends: liboctofix1 (= {version}-1)", "Multi-Arch: same"], {},
        ["static-library-has-unneeded-sections *"],
    ),
    Package(
        "python3-octofix", "amd64", "python", [f"{PYTHON}/*"], "Python",
        "This package has the package for Python.",
        ["Depends: libc6 (>= {module}), liboctofix1 (= {version}-1), python3 (>= 3.9), "
         "python3-numpy (>= 1:1.21)", "Recommends: python3-pil",
         "Suggests: python3-scipy, python3-tqdm, python3-rosbag"],
        {"postinst": COMPILE, "prerm": CLEAN},
    ),
    Package(
        "octofix", "amd64", "science", ["usr/bin/*", "usr/libexec/*", "usr/share/*"],
        "program and tools",
        "This package has the program octomap, and the tools with the command octofix.",
        ["Depends: libc6 (>= {program}), sse4.2-support, python3-octofix (= {version}-1), "
         "python3:any"], {}, [UNSTRIPPED, "hardening-no-fortify-functions *"],
    ),
]  # fmt: skip


class Unplaced(Exception):
    """A file that no package has."""


def parted(tree):
    """For each package, by its name, what it has of the layout."""
    trees = {it.name: Tree() for it in PACKAGES}
    for name, it in tree.items():
        if name in LEFT_OUT:
            continue
        owners = [one.name for one in PACKAGES if any(fnmatch(name, at) for at in one.patterns)]
        if not owners:
            raise Unplaced(name)
        trees[owners[0]][name] = it
    return trees


def with_texts_packed(tree):
    """The same, where man pages and the list of changes are .gz, as Debian has them."""
    found = Tree()
    for name, (mode, content) in tree.items():
        if name.startswith("usr/share/man/"):
            found.put(f"{name}.gz", zipped(content))
        elif name.endswith("/CHANGELOG.md"):
            found.put(f"{Path(name).parent}/changelog.gz", zipped(content))
        else:
            found[name] = mode, content
    return found


def words_of(release):
    """What texts say of the release, in which a trial's version comes before the version's own."""
    words = release.words()
    return {**words, "version": words["version"].replace("+", "~")}


def add_metadata(tree, release):
    """What tells Python which version of the package is there."""
    info = f"{PYTHON}/octofix-{release.version}.dist-info"
    tree.put(f"{info}/METADATA", octofix_build.metadata(release.version, has_licenses=False))
    tree.put(f"{info}/INSTALLER", "debian\n")


def add_documents(tree, package, release):
    """What each package has under its own name."""
    holders, license = release.license()
    license = "".join(f" {it}\n" if it else " .\n" for it in license.splitlines())
    facts = {**words_of(release), "commit": release.commit, "date": formatdate(release.time)}
    docs = f"usr/share/doc/{package.name}"
    tree.put(f"{docs}/copyright", COPYRIGHT.format(holders=holders, license=license))
    tree.put(f"{docs}/changelog.Debian.gz", zipped(CHANGELOG.format(**facts)))
    tree.put(f"{docs}/PROVENANCE.txt", release.provenance)
    overrides = [*package.overrides, "initial-upload-closes-no-bugs *"]
    lines = "".join(f"{package.name}: {it}\n" for it in overrides)
    tree.put(f"usr/share/lintian/overrides/{package.name}", lines)


def symbols(release):
    """Since which version the library has each function."""
    lines = [f" {it}@Base {release.number}\n" for it in release.library.exports()]
    return "".join(["liboctofix.so.1 liboctofix1 #MINVER#\n", *lines])


def control_of(tree, package, release):
    """The files of the folder DEBIAN."""
    size = sum(-(-len(it) // 1024) for _, it in tree.files()) + len(tree.folders())
    words = words_of(release)
    control = CONTROL.format(
        name=package.name, architecture=package.architecture, section=package.section, size=size,
        source="" if package.name == "octofix" else "\nSource: octofix",
        relations="".join(f"{it.format(**words)}\n" for it in package.relations),
        short=package.short, about=package.about,
        proved=PROVED if release.logic else UNPROVED, **words,
    )  # fmt: skip
    sums = "".join(f"{hashlib.md5(it).hexdigest()}  {name}\n" for name, it in tree.files())
    texts = {"control": control, "md5sums": sums, **package.control}
    if "shlibs" in texts:
        texts["shlibs"] = texts["shlibs"].format(**words)
        texts["symbols"] = symbols(release)
    found = Tree()
    for name, text in texts.items():
        found.put(f"DEBIAN/{name}", text, EXECUTABLE if text.startswith("#!") else PLAIN)
    return found


def build(tree, package, release, out):
    """Has dpkg-deb pack it, and answers the package's file."""
    file = f"{package.name}_{words_of(release)['version']}-1_{package.architecture}.deb"
    with tempfile.TemporaryDirectory() as room:
        at = Path(room, package.name)
        at.mkdir()
        at.chmod(0o755)
        Tree({**tree, **control_of(tree, package, release)}).write_to(at)
        words = ["dpkg-deb", "--root-owner-group", "-Zxz", "--threads-max=1", "--build"]
        env = {**os.environ, "SOURCE_DATE_EPOCH": str(release.time)}
        subprocess.run(
            [*words, at, Path(out, file)], check=True, env=env, stdout=subprocess.DEVNULL
        )
    return file


def make(release, layout, out):
    """Packs what is installed in a folder that has usr, and answers the packages' names."""
    names = []
    trees = parted(Tree.of(layout))
    add_metadata(trees["python3-octofix"], release)
    for package in PACKAGES:
        tree = with_texts_packed(trees[package.name])
        add_documents(tree, package, release)
        names.append(build(tree, package, release, out))
    return names
