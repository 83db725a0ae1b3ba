#!/usr/bin/env python3
"""Opens the page of a map in a browser and measures it: how many faces are drawn, and how long
opening, a picture, a cut and a click take.

    OCTOFIX_LIBRARY=FILE bench/page.py MAP [PICTURE.png]

PICTURE is what is seen then, as in README.md. Needs numpy, Pillow and Debian's chromium. Without a
graphics processor a picture takes far longer than with one.
"""
import io
import sys
import tempfile
import time
from pathlib import Path

ROOT = Path(__file__).resolve().parents[1]
sys.path += [str(ROOT / "bindings/python"), str(ROOT / "bindings/python/tests_tools")]

import browser  # noqa: E402
import octofix_compile  # noqa: E402
from PIL import Image  # noqa: E402

octofix_compile.make_in_place()

from octofix._program import main as octofix  # noqa: E402

SIZE, COLOURS = (860, 480), 128
MANY = "viewer.painter.solid.all[0].runs.reduce((sum, it) => sum + it.many, 0)"
PICTURE = "viewer.painter.time(viewer.camera)"
CUT = "viewer.cut('high', viewer.slice.high - 1)"
CLICK = "viewer.pick(viewer.canvas.clientWidth / 2, viewer.canvas.clientHeight / 2)"


def milliseconds(window, call, many):
    return window.js(f"""(() => {{ const began = performance.now();
        for (let n = 0; n < {many}; n++) {call};
        return (performance.now() - began) / {many}; }})()""")


def write_picture(window, name):
    window.click(480, 290)
    window.settle()
    with Image.open(io.BytesIO(window.picture())) as image:
        image.convert("RGB").quantize(COLOURS).save(name, optimize=True)


def measure(name, picture=None):
    with tempfile.TemporaryDirectory() as folder:
        page = Path(folder) / "map.html"
        if octofix(["view", name, "-o", str(page)]):
            return 1
        window = browser.Browser(*SIZE)
        began = time.monotonic()
        window.open(page.as_uri())
        print(f"{page.stat().st_size:,} bytes, opened in {time.monotonic() - began:.1f} s")
        print(f"{window.js(MANY):,} faces, a picture in {window.js(PICTURE):.0f} ms")
        if picture:
            write_picture(window, picture)
        print(f"a click in {milliseconds(window, CLICK, 100):.2f} ms", end=", ")
        print(f"a cut in {milliseconds(window, CUT, 10):.1f} ms")
        window.close()
    return 0


if __name__ == "__main__":
    if browser.missing() or len(sys.argv) not in (2, 3):
        sys.exit(browser.missing() or __doc__)
    sys.exit(measure(*sys.argv[1:]))
