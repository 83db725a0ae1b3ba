#!/usr/bin/env python3
"""Measures the peak memory of the program on inputs as large as its limits let them be, and fails
where one takes more than it may, or ends with another status than it should.

    tests/limits.py [--program FILE]

Needs Linux, a C compiler (cc) for the few lines that measure, 1.1 GB of disk and 3 GB of memory.
"""
import random
import re
import subprocess
import sys
import tempfile
from pathlib import Path

sys.path.append(str(Path(__file__).resolve().parents[1] / "tools/check"))
import options  # noqa: E402

PROGRAM = options.program(__doc__)

# A process that Python starts begins with Python's own peak, and one that this starts doesn't.
PEAK = r"""
#include <stdio.h>
#include <sys/resource.h>
#include <sys/wait.h>
#include <unistd.h>
int main(int count, char **words) {
    if (fork() == 0) { execv(words[1], words + 1); _exit(127); }
    int status;
    struct rusage used;
    wait4(-1, &status, 0, &used);
    int code = WIFSIGNALED(status) ? 128 + WTERMSIG(status) : WEXITSTATUS(status);
    fprintf(stderr, "status %d kilobytes %ld\n", code, used.ru_maxrss);
    return 0;
}
"""

# The record of a block all of whose blocks are parted, down to one occupied voxel in each lowest
# group, by the depth: how many records it has, how many are lowest, and the text of small ones.
FULL, LOWEST, TEXT = {15: 1}, {15: 1}, {15: b"\x02\0"}
for depth in range(14, -1, -1):
    FULL[depth], LOWEST[depth] = 1 + 8 * FULL[depth + 1], 8 * LOWEST[depth + 1]
    if depth > 8:
        TEXT[depth] = b"\xff\xff" + 8 * TEXT[depth + 1]


def deep(depth, most):
    """The record of a block of this depth with at most this many records in all, as parts, with
    their number and that of the lowest."""
    if depth in TEXT and most >= FULL[depth]:
        return [TEXT[depth]], FULL[depth], LOWEST[depth]
    parts, count, lowest, children = [], 1, 0, 0
    while children < 8 and most - count >= 15 - depth:
        more, below, low = deep(depth + 1, min(most - count, FULL[depth + 1]))
        parts, count, lowest, children = parts + more, count + below, lowest + low, children + 1
    return [(4 ** children - 1).to_bytes(2, "little")] + parts, count, lowest


def write_deep(path, length):
    """A canonical file of this many bytes, whose records nest to the last level."""
    parts, count, lowest = deep(0, (length - 200) // 2)
    head = b"# Octomap OcTree binary file\n"
    tail = b"\nid OcTree\nsize %d\nres 0.1\ndata\n" % (count + lowest)
    with open(path, "wb") as file:
        file.write(head + b"#" * (length - len(head) - len(tail) - 2 * count) + tail)
        file.writelines(parts)


def write_scan(path, points, cells):
    """A scan of this many points whose beams meet nearly that many voxels at 0.1 m."""
    chance = random.Random(1)
    with open(path, "w") as file:
        file.write("scan 0.05 0.05 0.05 1 0 0 0 all\n")
        for point in range(points):
            crossed = (cells // (points - point) - 1) * chance.uniform(0.2, 1.8)
            way = [chance.gauss(0, 1) for _ in range(3)]
            way = [int(crossed * it / sum(map(abs, way))) for it in way]
            cells -= sum(map(abs, way)) + 1
            file.write("p " + " ".join(f"{0.1 * it + chance.uniform(-.03, .03):.4f}" for it in way)
                       + "\n")
        file.write("end\n")


def write_line(path, length):
    with open(path, "wb") as file:
        for _ in range(length >> 20):
            file.write(b"x" * (1 << 20))
        file.write(b"\nhit 0 0 0\n")


def box(corner):
    return f"box {corner} 0 0 {corner + 9}.9 9.9 9.9 set 850\n"


def main():
    session, inspect = "session 0.1", "inspect --max-bytes 4294967296"
    failed = False
    with tempfile.TemporaryDirectory() as room:
        room = Path(room)
        subprocess.run(["cc", "-O1", "-x", "c", "-", "-o", room / "peak"], input=PEAK.encode(),
                       check=True)

        def measure(name, words, most, made, due=0):
            """Runs the program on a file or a text; whether it took more megabytes than these, or
            ended with another status."""
            if isinstance(made, bytes):
                (room / "input").write_bytes(made)
                made = room / "input"
            with open(made, "rb") as data:
                done = subprocess.run([room / "peak", PROGRAM, *words.split()], cwd=room,
                                      stdin=data, stdout=subprocess.DEVNULL, stderr=subprocess.PIPE)
            status, peak = re.search(rb"status (\d+) kilobytes (\d+)", done.stderr).groups()
            print(f"{name}: {int(peak) / 1024:.1f} MB (at most {most}), status {status.decode()}"
                  f" (due {due})", flush=True)
            return int(peak) > 1024 * most or int(status) != due

        failed |= measure("an empty script", session, 3, b"")
        failed |= measure("a header without a line feed", "inspect", 3, b"#" * 65536, 3)
        write_line(room / "line", 10 ** 9)
        failed |= measure("a line of a gigabyte", session, 3, room / "line", 1)
        (room / "line").unlink()
        write_scan(room / "scan", 1_000_000, 1 << 26)
        failed |= measure("a scan of a million points", session, 70, room / "scan")
        failed |= measure("a list of a million blocks", session, 60,
                          f"{box(0)}list 0 0 0 9.9 9.9 9.9 16\n".encode())
        failed |= measure("a million changes", session, 50, f"track\n{box(0)}changes\n".encode())
        boxes = "".join(box(10 * it) for it in range(8))
        failed |= measure("eight million changes", session, 350,
                          f"track\n{boxes}changes\n".encode())
        write_deep(room / "deep", 2 * ((1 << 24) - 1) + 200)
        failed |= measure("a load of 2^24 groups", session, 1400, b"load deep\n")
        failed |= measure("and once more", session, 2600, b"load deep\nload deep\n")
        write_deep(room / "deep", 1 << 29)
        write_deep(room / "other", (1 << 29) - (1 << 20))
        failed |= measure("a merge of two files of 2^29 bytes", "merge greatest deep other", 1700,
                          b"")
        (room / "other").unlink()
        write_deep(room / "deep", 1 << 30)
        # (accepted as a file, and refused as full)
        failed |= measure("a load of a file of 2^30 bytes", session, 2200, b"load deep\n", 1)
        failed |= measure("its inspection", inspect, 1200, room / "deep")
        failed |= measure("its conversion", inspect.replace("inspect", "convert"), 1200,
                          room / "deep")
    sys.exit(failed)


main()
