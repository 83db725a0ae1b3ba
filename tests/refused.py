#!/usr/bin/env python3
"""Refuses the program one request for memory, the first, the second and so on, each in a run of its
own, until a run asks for no more than was granted; over a session in which every command stands,
and over each other task. Each run must end with the whole answer, or out of memory with a beginning
of it, and with the files that stand after the lines that were answered, or after one line more.

    tests/refused.py [--program FILE]

Needs Linux and a C compiler (cc), for the few lines that count the requests.
"""
import os
import subprocess
import sys
import tempfile
from pathlib import Path

sys.path.append(str(Path(__file__).resolve().parents[1] / "tools/check"))
import options  # noqa: E402

PROGRAM = options.program(__doc__)
OUT_OF_MEMORY = 7

REFUSE = r"""
#include <stdlib.h>
extern void *__libc_malloc(size_t size);
extern void *__libc_realloc(void *old, size_t size);
static long left = -1;
__attribute__((constructor)) static void begin(void) {
    const char *number = getenv("OCTOMAP_REFUSE");
    if (number != NULL) left = atol(number);
}
static int refused(void) { return left > 0 && --left == 0; }
void *malloc(size_t size) { return refused() ? NULL : __libc_malloc(size); }
void *realloc(void *old, size_t size) { return refused() ? NULL : __libc_realloc(old, size); }
"""

# A script in which every command stands.
LINES = """\
hit 0.05 0.05 0.05
add 1.05 1.05 1.05 -300 lazy
get 0.05 0.05 0.05 16
set 2.05 2.05 2.05 700
forget 2.05 2.05 2.05 lazy
scan 0 0 0 1 0 0 0 5
p 3 1 0.5
p 3 -1 0.5
p 0 4 1
p 40 1 1
end
save first
snapshot values
track
box 0.5 0.5 0.5 1.5 1.5 1.5 hit
miss 3.05 1.05 0.55
changes
list 0 0 0 1 1 1 16
refresh
list -1 -1 -1 5 5 1 12
cast 0 0 0 6 2 1 ignore
limit 0 0 0 10 10 10
scan 0 0 0 1 0 0 0 all 700 -100 lazy
p 30 20 10
p -3 2 0
end
refresh
counts
box -0.7 -0.7 -0.7 0 0 0 add 300
maxlik
prune
changes
snapshot late
load first
get 0 0 0 0
changes
restore values
counts
save second
restore late
nolimit
untrack
clear
load second
counts
restore nothing
quit
"""


def units_of(lines):
    """The units of a script: its lines, those of a scan's block as one."""
    units, block = [], ""
    for line in lines.splitlines(keepends=True):
        block += line
        if not block.startswith("scan") or line == "end\n":
            units.append(block)
            block = ""
    return units


def run(words, data, folder, refuse=None, shim=None):
    """Status and output of a run, and the files that it left."""
    world = dict(os.environ)
    if refuse is not None:
        world |= {"LD_PRELOAD": shim, "OCTOMAP_REFUSE": str(refuse)}
    done = subprocess.run([PROGRAM, *words], input=data, cwd=folder, env=world,
                          stdout=subprocess.PIPE, stderr=subprocess.DEVNULL)
    files = {file.name: file.read_bytes() for file in Path(folder).iterdir()}
    return done.returncode, done.stdout, files


def fresh(words, data, files=(), **how):
    """The same in a folder of its own, where these files stand."""
    with tempfile.TemporaryDirectory() as folder:
        for name, text in dict(files).items():
            Path(folder, name).write_bytes(text)
        return run(words, data, folder, **how)


def marks_of(words, units):
    """Output and files after each number of units."""
    return [fresh(words, "".join(units[:k]).encode())[1:] for k in range(len(units) + 1)]


def is_due(came, whole, stands):
    """Whether a run that was refused memory ended as it may."""
    status, output, files = came
    if came == whole:
        return True
    if status != OUT_OF_MEMORY or not whole[1].startswith(output):
        return False
    # Those units were answered whose replies are there whole; the last ones may have none. The next
    # one may be done too, where only its reply is missing.
    whole_replies = max(len(text) for text, _ in stands if len(text) <= len(output))
    answered = [k for k, (text, _) in enumerate(stands) if len(text) == whole_replies]
    return any(files == left for _, left in stands[answered[0]:answered[-1] + 2])


def attempt(name, words, data, stands, shim, files=()):
    """Refuses each request in turn; the number of runs that didn't end as they may."""
    def once(refuse):
        return fresh(words, data, files, refuse=refuse, shim=shim)

    whole, faults, cut = fresh(words, data, files), 0, 0
    for number in range(1, 100000):
        came = once(number)
        cut += came[0] == OUT_OF_MEMORY
        if not is_due(came, whole, stands):
            faults += 1
            print(f"{name}: request {number} refused: status {came[0]}, {len(came[1])} bytes, "
                  f"files {sorted(came[2])}")
        # As many requests in a row without an effect as no run comes to: the last was passed.
        if came == whole and once(number + 1) == whole and once(number + 50) == whole:
            break
    print(f"{name}: {number - 1} requests refused one by one, {cut} runs ended out of memory")
    return faults


def main():
    units, script = units_of(LINES), LINES.encode()
    session, build = ["session", "0.1"], ["build", "0.1"]
    with tempfile.TemporaryDirectory() as room:
        shim = f"{room}/refuse.so"
        subprocess.run(["cc", "-shared", "-fPIC", "-x", "c", "-", "-o", shim],
                       input=REFUSE.encode(), check=True)
        faults = attempt("session", session, script, marks_of(session, units), shim)
        # A build writes nothing before its script has ended, whatever files stand by then.
        stands = [(b"", left) for _, left in marks_of(session, units)]
        faults += attempt("build", build, script, stands, shim)
        whole = fresh(build, script)
        for words, data in ((["convert"], whole[1]), (["inspect"], whole[1]),
                            (["frontier", *"0 0 0 1 1 1".split()], whole[1]),
                            (["project", *"-1 -1 0 1 1 1".split()], whole[1]), (["vrml"], whole[1]),
                            (["gen", "1", "3", "50"], b""), (["drill", "1", "3", "50"], b"")):
            answer = fresh(words, data)
            faults += attempt(words[0], words, data, [(b"", {}), (answer[1], {})], shim)
        files = {"a": whole[1], "b": fresh(build, b"miss 0 0 0\nhit 1 1 1\n")[1]}
        for words in ["merge", "least", "a", "b"], ["table", "a", "b", *"0 0 0 1 1 1".split()]:
            answer = fresh(words, b"", files)
            faults += attempt(words[0], words, b"", [(b"", files), (answer[1], files)], shim, files)
    sys.exit(1 if faults else 0)


main()
