"""Modules of JavaScript as one script of a page."""

import re

# What a script of many modules doesn't need: their imports, which are there, exports, lines of
# comments, what begins a line, and empty lines.
_LEFT_OUT = re.compile(
    r"^(import [^;]*;\n|export \{[^}]*\}[^;]*;\n|export | *//.*\n| +|\n)", re.MULTILINE
)


def script_of(files):
    """The text of modules, as `Path`s, each behind those that it uses, whose names are those of one
    script."""
    return "".join(_LEFT_OUT.sub("", it.read_text(encoding="utf-8")) for it in files)
