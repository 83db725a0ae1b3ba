"""What is released: where it comes from, which version it is, and whether it can be released."""

import hashlib
import os
import re
import shutil
import subprocess
from pathlib import Path

import elf
import octofix_build
import octofix_compile
import provenance

ROOT = Path(__file__).resolve().parents[2]
PYTHONS = ("python3", "/usr/bin/python3")
# What makes a release, and what has it.
TOOLS = {
    "rt": "the kit", "git": "in Debian git", "readelf": "in Debian binutils",
    "dpkg-deb": "in Debian dpkg",
}  # fmt: skip
NOBODY = "octofix developers <octofix@localhost>"


class Unfit(Exception):
    """Why there can be no release, in one line."""


def run(*words, **how):
    """What a command says; that it fails is Unfit."""
    done = subprocess.run(words, capture_output=True, text=True, **how)
    if done.returncode:
        said = (done.stderr or done.stdout).strip().splitlines() or ["without a word"]
        raise Unfit(f"{Path(words[0]).name} failed: {said[0]}")
    return done.stdout.strip()


def git(*words):
    return run("git", "-C", ROOT, *words)


def has_numpy(python):
    words = [python, "-c", "import numpy"]
    return shutil.which(python) and not subprocess.run(words, capture_output=True).returncode


def check_tools(is_pinned):
    """Whether all is here that makes a release; where it is pinned, the compiler by its version."""
    for tool, source in TOOLS.items():
        if not shutil.which(tool):
            raise Unfit(f"a release needs the command {tool} ({source})")
    if not any(map(has_numpy, PYTHONS)):
        raise Unfit("a release needs a python3 with numpy (in Debian python3-numpy)")
    try:
        octofix_compile.tools(is_pinned)
    except octofix_compile.Unfit as why:
        raise Unfit(str(why)) from None


def check_folder(folder):
    """It can be made and written, and nothing is in it."""
    place = next(it for it in (folder, *folder.parents) if it.exists())
    if not place.is_dir() or not os.access(place, os.W_OK | os.X_OK):
        raise Unfit(f"can't write to the folder '{folder}'")
    if folder.is_dir() and any(folder.iterdir()):
        raise Unfit(f"the folder '{folder}' isn't empty")


class Sources:
    """The commit of the sources, and whether they have changes that it hasn't."""

    def __init__(self, may_be_changed):
        is_clone = (ROOT / ".git").exists()
        if not (is_clone or may_be_changed):
            raise Unfit(f"{ROOT} is no clone, and a release tells its commit (or takes --dirty)")
        self.commit, self.tree, self.author, self.is_changed = "unknown", "unknown", NOBODY, True
        self.time = octofix_build.EARLIEST
        if is_clone:
            self.read_commit(may_be_changed)
        self.time = int(os.environ.get("SOURCE_DATE_EPOCH") or self.time)

    def read_commit(self, may_be_changed):
        self.commit = git("rev-parse", "HEAD")
        self.tree = git("rev-parse", "HEAD^{tree}")
        self.author = git("log", "-1", "--format=%an <%ae>")
        self.time = git("log", "-1", "--format=%ct")
        changes = git("status", "--porcelain").splitlines()
        self.is_changed = bool(changes)
        if changes and not may_be_changed:
            first = changes[0].split(maxsplit=1)[1]
            raise Unfit(f"no commit has all that is here, as {first} (or give --dirty)")


class Release:
    """What is released: its version, where it comes from, and what stands behind it."""

    def __init__(self, sources, program, module, prefix, may_be_unproved):
        library = prefix / "lib" / octofix_build.LIBRARY
        self.commit, self.tree, self.time = sources.commit, sources.tree, sources.time
        self.is_changed, self.author = sources.is_changed, sources.author
        logics = {elf.logic_of(Path(it).read_bytes()) for it in (program, library)}
        self.logic = logics.pop() if len(logics) == 1 else None
        if not (self.logic or may_be_unproved):
            raise Unfit("program and library aren't proved, or not by one logic")
        self.number = octofix_build.project()["version"]
        words = ["unproved"] * (not self.logic) + ["changed"] * self.is_changed
        self.version = "+".join([self.number, *[".".join(words)] * bool(words)])
        files = elf.Elf(program), elf.Elf(library), elf.Elf(module)
        self.program, self.library, self.module = files
        for it in files[1:]:
            if it.needed() != ["libc.so.6"]:
                raise Unfit(f"{it.name} needs {it.needed()}, and not the C library alone")
        self.module_sum = hashlib.sha256(Path(module).read_bytes()).hexdigest()
        self.module_tools = octofix_compile.tools(not may_be_unproved)
        kit = Path(shutil.which("rt")).resolve()
        self.kit = run(kit, "version")
        what = (kit.parent.parent / "WHAT").read_text()
        self.compiler = re.search(r"^compiler (\w+)$", what, re.M)[1]
        self.provenance = provenance.text(self, prefix)

    def read(self, name):
        return (ROOT / name).read_text()

    def license(self):
        """Who holds the copyright, and the license's own text."""
        found = re.search(r"^Copyright \(c\) (.*)\n\n(.*)", self.read("LICENSE"), re.M | re.S)
        return found.groups()

    def words(self):
        """What texts say of it."""
        named = os.environ.get("DEBFULLNAME"), os.environ.get("DEBEMAIL")
        return {
            "version": self.version,
            "number": self.number,
            "library": "{}.{}".format(*self.library.glibc()),
            "program": "{}.{}".format(*self.program.glibc()),
            "module": "{}.{}".format(*self.module.glibc()),
            "maintainer": "{} <{}>".format(*named) if all(named) else self.author,
        }
