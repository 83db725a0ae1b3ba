"""Builds the wheel and the sdist of this package, by the standard library and a C compiler alone.

pip calls the functions of a build backend that stand last. The module is compiled here, and the
wheel has the library where one is found as the package itself would find it, as a file; where only
the system's loader finds it, the package will find it that way too; and without any library, or
without what it takes to compile, nothing is built. A release calls `write_wheel` with the files and
the tags that it knows.
"""

import base64
import hashlib
import io
import os
import re
import sys
import sysconfig
import tarfile
import tempfile
import time
import zipfile
from pathlib import Path

try:
    import tomllib
except ImportError:
    import tomli as tomllib

import octofix_compile

HERE = Path(__file__).resolve().parent
LIBRARY = "liboctofix.so.1"
COMMAND = "octofix.sh"
MODULE = f"octofix/{octofix_compile.NAME}"
# One module serves each Python from 3.9 on; one that leads to a folder is for none.
TAG, PURE = "cp39-abi3", "py3-none-any"
# The time of a file where nothing says one: the first that a zip archive can have.
EARLIEST = 315532800


def project():
    """What pyproject.toml says of the package."""
    with open(HERE / "pyproject.toml", "rb") as file:
        return tomllib.load(file)["project"]


def files_below(folder, top):
    """The files below a folder by their names under another one, each as (mode, bytes)."""
    found = sorted(it for it in folder.rglob("*") if it.is_file() and "__pycache__" not in it.parts)
    return {f"{top}/{it.relative_to(folder)}": (0o644, it.read_bytes()) for it in found}


def package_files(folder=None):
    """The package's files, without what is compiled where they are the sources."""
    if folder:
        return files_below(Path(folder), "octofix")
    found = files_below(HERE / "octofix", "octofix")
    return {name: it for name, it in found.items() if not name.endswith(".so")}


def compiled():
    """The bytes of the module; what lacks for it is told in one line."""
    with tempfile.TemporaryDirectory() as room:
        made = Path(room, octofix_compile.NAME)
        try:
            octofix_compile.compile_to(made)
        except octofix_compile.Unfit as why:
            refuse(why)
        return made.read_bytes()


def found_library():
    """The file of the library, or None where the system's loader finds it."""
    sys.path.insert(0, str(HERE))
    try:
        from octofix import _loading
    except ImportError as why:
        refuse(" ".join(str(why).split()))
    name = _loading.library._name
    if _loading.version() != project()["version"]:
        refuse(f"the library {name} is of version {_loading.version()}")
    return None if name == LIBRARY else Path(name)


def refuse(why):
    sys.exit(f"octofix can't be built: {why} (a release's wheel has its library in it)")


def description():
    """The package's page, without the links into the repository, which lead nowhere elsewhere."""
    return re.sub(r"\[([^]]*)\]\(\.\./[^)]*\)", r"\1", (HERE / "README.md").read_text("utf-8"))


def licenses():
    """The license's text, by its name: it stands here in an sdist, and at the top of a clone."""
    places = [HERE / "LICENSE", *(it / "LICENSE" for it in HERE.parents[1:2])]
    return {"LICENSE": it.read_text("utf-8") for it in places if it.is_file()}


def metadata(version=None, has_licenses=True):
    """The text of METADATA, of the project's version where none is given; the license stands beside
    it unless it is said that none does."""
    about = project()
    lines = [
        # (the first version that has License-File)
        "Metadata-Version: 2.4",
        f"Name: {about['name']}",
        f"Version: {version or about['version']}",
        f"Summary: {about['description']}",
        f"Keywords: {','.join(about['keywords'])}",
        f"License-Expression: {about['license']}",
        *(f"License-File: {it}" for it in licenses() if has_licenses),
        *(f"Classifier: {it}" for it in about["classifiers"]),
        *(f"Project-URL: {name}, {url}" for name, url in about.get("urls", {}).items()),
        f"Requires-Python: {about['requires-python']}",
        *(f"Requires-Dist: {it}" for it in about["dependencies"]),
    ]
    for extra, needs in about["optional-dependencies"].items():
        lines.append(f"Provides-Extra: {extra}")
        lines += [f'Requires-Dist: {it} ; extra == "{extra}"' for it in needs]
    return "\n".join([*lines, "Description-Content-Type: text/markdown", "", description()])


def record(files, name):
    """The text of RECORD, which has this name: each file with its sum and its bytes."""

    def sum_of(content):
        return base64.urlsafe_b64encode(hashlib.sha256(content).digest()).rstrip(b"=").decode()

    lines = [f"{it},sha256={sum_of(content)},{len(content)}\n"
             for it, (_, content) in files.items()]  # fmt: skip
    return "".join([*lines, f"{name},,\n"])


def packed(files, seconds):
    """A zip archive of the files, stored as they are, so that each zlib makes the same one."""
    out = io.BytesIO()
    with zipfile.ZipFile(out, "w", zipfile.ZIP_STORED) as archive:
        for name, (mode, content) in files.items():
            it = zipfile.ZipInfo(name, time.gmtime(max(seconds, EARLIEST))[:6])
            it.create_system, it.external_attr = 3, (0o100000 | mode) << 16
            archive.writestr(it, content)
    return out.getvalue()


def write_wheel(folder, files, tags, version=None, more=(), seconds=EARLIEST):
    """Writes a wheel of these files, with more of them, by name, beside its metadata, and answers
    its name. Tags are whole ones, as py3-none-any, that differ in their last part."""
    about = project()
    version = version or about["version"]
    info = f"octofix-{version}.dist-info"
    head = f"Wheel-Version: 1.0\nGenerator: octofix\nRoot-Is-Purelib: {str(PURE in tags).lower()}\n"
    scripts = "".join(f"{it} = {to}\n" for it, to in about["scripts"].items())
    texts = {
        "METADATA": metadata(version),
        "WHEEL": head + "".join(f"Tag: {it}\n" for it in tags),
        "entry_points.txt": f"[console_scripts]\n{scripts}",
        **{f"licenses/{name}": text for name, text in licenses().items()},
        **dict(more),
    }
    command = f"octofix-{version}.data/scripts/octofix"
    files = {**files, command: (0o755, (HERE / COMMAND).read_bytes())}
    files = {**files, **{f"{info}/{it}": (0o644, text.encode()) for it, text in texts.items()}}
    files[f"{info}/RECORD"] = 0o644, record(files, f"{info}/RECORD").encode()
    last = ".".join(it.rpartition("-")[2] for it in tags)
    name = f"octofix-{version}-{tags[0].rpartition('-')[0]}-{last}.whl"
    Path(folder, name).write_bytes(packed(files, seconds))
    return name


def build_wheel(wheel_directory, config_settings=None, metadata_directory=None):
    """A wheel with the library that is found, or without one where the system has it."""
    library, files = found_library(), package_files()
    files[MODULE] = 0o755, compiled()
    if library:
        files[f"octofix/{LIBRARY}"] = 0o755, library.read_bytes()
    platform = re.sub(r"\W", "_", sysconfig.get_platform())
    return write_wheel(wheel_directory, files, [f"{TAG}-{platform}"])


def build_editable(wheel_directory, config_settings=None, metadata_directory=None):
    """A wheel that leads to this folder, whose package looks for the library when it runs."""
    found_library()
    try:
        octofix_compile.make_in_place()
    except octofix_compile.Unfit as why:
        refuse(why)
    files = {"octofix.pth": (0o644, f"{HERE}\n".encode())}
    return write_wheel(wheel_directory, files, [PURE])


def build_sdist(sdist_directory, config_settings=None):
    """The sources of the package, of which pip builds a wheel where there is a library."""
    top = f"octofix-{project()['version']}"
    files = {**package_files(), **files_below(HERE / "native", "native")}
    for it in octofix_compile.headers():
        files[f"native/{it.name}"] = 0o644, it.read_bytes()
    for it in ("pyproject.toml", "README.md", "octofix_build.py", "octofix_compile.py", COMMAND):
        files[it] = 0o644, (HERE / it).read_bytes()
    for it, text in {"PKG-INFO": metadata(), **licenses()}.items():
        files[it] = 0o644, text.encode()
    with tarfile.open(Path(sdist_directory, f"{top}.tar.gz"), "w:gz") as archive:
        for name, (mode, content) in files.items():
            it = tarfile.TarInfo(f"{top}/{name}")
            it.mode, it.size, it.mtime = mode, len(content), EARLIEST
            archive.addfile(it, io.BytesIO(content))
    return f"{top}.tar.gz"
