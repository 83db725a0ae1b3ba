#!/usr/bin/env python3
"""Makes the page into which maps are dropped: one file, with the library in it. Takes any Python
from 3.9 on, with nothing beside it.

    bindings/web/make_page.py MODULE.wasm PAGE.html
"""

import base64
import json
import re
import sys
from pathlib import Path

WEB = Path(__file__).resolve().parent
sys.dont_write_bytecode = True
sys.path.insert(0, str(WEB.parent / "python"))

from octofix.viewer import looks  # noqa: E402
from octofix.viewer.bundle import script_of  # noqa: E402

SOURCES = WEB / "viewer"
SHARED = WEB.parent / "python/octofix/viewer/assets"
LIBRARY = ("octofix-library.mjs", "octofix.mjs")
# Each behind what it uses.
WORKER = ("tree.js", "faces.js", "supply.js", "trees.js", "octofix-calls.mjs", "desk.js")
SHOWN = (
    "tree.js", "faces.js", "shaders.js", "camera.js", "casting.js", "painter.js", "telling.js",
    "panel.js", "hands.js", "address.js", "viewer.js", "octofix-calls.mjs", "remote.js",
    "inspector.js", "files.js", "opening.js",
)  # fmt: skip


def found(name):
    """A source: the page's own, of the library, or what it shares with the page of one map."""
    return next(it / name for it in (SOURCES, WEB, SHARED) if (it / name).exists())


def version():
    text = (WEB.parent / "python/pyproject.toml").read_text()
    return re.search(r'^version = "(.*)"$', text, re.M)[1]


def names_of(module):
    """What a module exports by `export const`, `function` and `class`."""
    exports = r"^export (?:async )?(?:const|function|class) (\w+)"
    return re.findall(exports, module.read_text(), re.M)


def library():
    """The library's modules as one name, so that they have no other in common with a script."""
    files = [WEB / it for it in LIBRARY]
    names = [it for file in files for it in names_of(file)]
    # (where the module is, the page says)
    script = script_of(files).replace('new URL("octofix.wasm", import.meta.url)', "undefined")
    script = script.replace("new URL(source, import.meta.url)", "new URL(source)")
    return f"const octofix = (() => {{\n{script}return {{{', '.join(names)}}};\n}})();\n"


def make(module):
    octofix = library()
    words = {
        "VERSION": version(),
        "STYLE": "".join((it / "page.css").read_text() for it in (SHARED, SOURCES)),
        # (not packed, since each zlib packs it otherwise, and a release has one's bytes anywhere)
        "WASM": base64.b64encode(module).decode(),
        "PROOF": "" if b"rattle logic=" in module else ", not proved",
        "DESK": octofix + script_of(map(found, WORKER)),
        "COLOURS": json.dumps(looks.ANCHORS),
        "BRIGHTNESS": json.dumps(looks.BRIGHTNESS),
        "OCTOFIX": octofix,
        "SCRIPT": script_of(map(found, SHOWN)),
    }
    return re.sub("@([A-Z]+)@", lambda it: words[it[1]], found("page.html").read_text()).encode()


if __name__ == "__main__":
    if len(sys.argv) != 3:
        sys.exit(__doc__)
    Path(sys.argv[2]).write_bytes(make(Path(sys.argv[1]).read_bytes()))
