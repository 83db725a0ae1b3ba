#!/usr/bin/env python3
"""Draws one layer of the map that a script leaves: '#' is occupied, '.' free, and a blank unknown;
'?' lies outside the map.

    examples/draw.py RES X0 Y0 X1 Y1 Z < SCRIPT

draws the voxels from the one that holds (X0, Y0, Z) to the one that holds (X1, Y1, Z); x goes right
and y up. It asks the program for each of them behind the script, or where its first `quit` stands.
The program is what OCTOMAP names, or the launcher beside this folder.
"""
import os
import re
import subprocess
import sys
from fractions import Fraction
from math import floor

LAUNCHER = os.path.join(os.path.dirname(os.path.abspath(__file__)), "..", "octomap")


def decimal(metres):
    nanometres = int(metres * 10**9)
    return f"{'-' * (nanometres < 0)}{abs(nanometres) // 10**9}.{abs(nanometres) % 10**9:09}"


SIGNS = {"occupied": "#", "free": ".", "unknown": " "}
ANSWER = re.compile("known -?[0-9]+ (occupied|free)|unknown|refused 24 .*")


def before_quit(script):
    """The lines of a script up to its first `quit` outside the block of a scan."""
    lines, is_inside = [], False
    for line in script.split("\n"):
        words = line.split()
        if words == ["quit"] and not is_inside:
            break
        is_inside = words != ["end"] if is_inside else words[:1] == ["scan"]
        lines.append(line)
    if is_inside:
        sys.exit("draw.py: the script ends inside a scan")
    return "\n".join(lines).rstrip("\n")


def numbers(words):
    """Six lengths, of which the first is above 0."""
    try:
        edge, *others = (Fraction(it) for it in words)
        if edge > 0 and len(others) == 5:
            return edge, *others
    except (ValueError, ZeroDivisionError):
        pass
    sys.exit(__doc__.strip())


def main(words):
    edge, x_0, y_0, x_1, y_1, z = numbers(words)
    columns = range(floor(x_0 / edge), floor(x_1 / edge) + 1)
    rows = range(floor(y_1 / edge), floor(y_0 / edge) - 1, -1)
    places = [f"{decimal(x * edge)} {decimal(y * edge)} {words[5]}" for y in rows for x in columns]
    asked = [f"get {place} 16" for place in places]
    sys.stdin.reconfigure(encoding="latin-1")  # (each byte goes to the program as it is)
    script = before_quit(sys.stdin.read()) + "\n" + "\n".join(asked) + "\n"
    call = [os.environ.get("OCTOMAP", LAUNCHER), "session", words[0]]
    try:
        ran = subprocess.run(call, input=script, stdout=subprocess.PIPE, encoding="latin-1")
    except OSError as why:
        sys.exit(f"draw.py: {call[0]}: {why.strerror}")
    answers = ran.stdout.splitlines()[-len(asked) :]
    is_answered = len(answers) == len(asked) and all(map(ANSWER.fullmatch, answers))
    if ran.returncode > 1 or not is_answered:
        sys.exit("draw.py: the program didn't answer the whole script")
    signs = [SIGNS.get(it.split()[-1], "?") for it in answers]
    for row in range(len(rows)):
        print(" ".join(signs[row * len(columns) : (row + 1) * len(columns)]).rstrip())


if __name__ == "__main__":
    main(sys.argv[1:])
