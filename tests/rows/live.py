"""What a row can't say: a session that is talked to, memory that runs out, and a file that somebody
reads while it is saved anew. Each run yields what went otherwise than it should."""
import os
import resource
import select
import subprocess
import tempfile
from pathlib import Path

from row import bt

PATIENCE = 20
LITTLE_MEMORY = 1 << 26
# Far more than a program takes at a time. One that were run again would answer what is left.
MANY_LINES = 400_000 * b"get 9 9 9 16\n"
# Each edit of this box needs room for 2^24 + 4 groups, which no little memory has.
TOO_MUCH = ["--max-groups", "67108864"], b"box 0 0 0 409.5 1228.7 0 hit\n"


def read_within(pipe, length):
    """What comes before that many bytes, the end, or the end of patience."""
    came = b""
    while len(came) < length and select.select([pipe], [], [], PATIENCE)[0]:
        piece = os.read(pipe.fileno(), length - len(came))
        if not piece:
            break
        came += piece
    return came


def answers_before_it_waits(program, folder):
    """The reply of each line is there before the next line is written, and so are those of several
    lines that are written at once, and of a line that comes in two pieces."""
    talk = [
        (b"hit 0 0 0\n", b"ok\n"),
        (b"get 0 0 0 16\n", b"known 850 occupied\n"),
        (b"miss 0 0 0\nget 0 0 0 16\nfly\n",
         b"ok\nknown 450 occupied\nrefused 29 Syntax line 5 column 1\n"),
        (b"scan 0 0 0 1 0 0 0 all\n", b""),
        (b"p 0 0 0\nen", b""),
        (b"d\n", b"ok hits 1 frees 0\n"),
        # Now voxel 10 is known too. It shares 13 of the blocks around voxel 0, and not 3.
        (b"\n# nothing\n" + 50 * b"hit 1 0 0\n", 50 * b"ok\n"),
        (b"save m\nload m\n", b"saved 175\nloaded 21\n"),
        (b"list 0 0 0 0 0 0 16\ncounts\n",
         b"block 32768 32768 32768 3500 occupied\nend 1\ngroups 19 nodes 21\n"),
        (b"track\nchanges\n", b"ok\nend 0\n"),
    ]
    with subprocess.Popen([program, "session", "0.1"], cwd=folder, stdin=subprocess.PIPE,
                          stdout=subprocess.PIPE, stderr=subprocess.DEVNULL, bufsize=0) as session:
        for lines, replies in talk:
            session.stdin.write(lines)
            came = read_within(session.stdout, len(replies))
            if came != replies:
                yield f"{lines!r} is answered by {came!r} before the next line, not by {replies!r}"
                break
        session.stdin.close()
        rest = session.stdout.read()
        if rest or session.wait() != 1:
            yield f"the session ends with {rest!r} and status {session.returncode}"


def quits_at_once(program, folder):
    """After quit a session ends, though its input stays open."""
    with subprocess.Popen([program, "session", "0.1"], cwd=folder, stdin=subprocess.PIPE,
                          stdout=subprocess.PIPE, bufsize=0) as session:
        session.stdin.write(b"hit 0 0 0\nquit\n")
        try:
            status, came = session.wait(PATIENCE), session.stdout.read()
        except subprocess.TimeoutExpired:
            session.kill()
            status, came = None, b""
        if (status, came) != (0, b"ok\n"):
            yield f"quit is answered by {came!r}, status {status}"


def run(program, words, given, folder, memory=None):
    """Status, answer and standard error of a run that may have so much memory."""
    with tempfile.TemporaryFile() as file:
        file.write(given)
        file.seek(0)
        less = memory and (lambda: resource.setrlimit(resource.RLIMIT_AS, (memory, memory)))
        done = subprocess.run([program] + words, cwd=folder, stdin=file, stdout=subprocess.PIPE,
                              stderr=subprocess.PIPE, preexec_fn=less)
    return done.returncode, done.stdout, done.stderr


def runs_out_of_memory(program, folder):
    """Out of memory a session ends with 7 and says so. What it wrote is the front of its answer,
    and what it saved before, with a reply, stands. It isn't run again."""
    options, line = TOO_MUCH
    given = b"hit 0 0 0\nsave m\n" + line + MANY_LINES
    status, came, said = run(program, ["session", "0.1"] + options, given, folder, LITTLE_MEMORY)
    if (status, said) != (7, b"octomap: out of memory\n"):
        yield f"it ends with status {status} and {said!r}"
    if not b"ok\nsaved 169\n".startswith(came):
        yield f"it answers {came[:200]!r}"
    names = os.listdir(folder)
    if names not in ([], ["m"]) or (b"saved" in came and names != ["m"]):
        yield f"it leaves {names}"
    build = run(program, ["build", "0.1"] + options, given, folder, LITTLE_MEMORY)
    if build != (7, b"", b"octomap: out of memory\n"):
        yield f"a build ends so: {build}"


def records_of(depth):
    """The records of a block of this depth that is parted down to its voxels, all occupied."""
    return b"\xAA\xAA" if depth == 15 else b"\xFF\xFF" + 8 * records_of(depth + 1)


def holds_more_than_it_can(program, folder):
    """A file of 38 MB can't be held by a program that has 32 MB: it writes nothing."""
    header = b"# Octomap OcTree binary file\nid OcTree\nres 0.1\nsize 153391696\ndata\n"
    file = header + b"\0\xC0" + 6 * b"\3\0" + records_of(7)
    done = run(program, ["convert"], file, folder, LITTLE_MEMORY // 2)
    if done != (7, b"", b"octomap: out of memory\n"):
        yield f"it ends so: {done}"
    if run(program, ["inspect"], file, folder)[0] != 0:
        yield "with more memory the file isn't accepted"


def is_run_once(program, folder):
    """A session ends at its quit, and at a store that fails, and answers nothing behind that."""
    status, came, said = run(program, ["session", "0.1"], b"hit 0 0 0\nquit\n" + MANY_LINES, folder)
    if (status, came, said) != (0, b"ok\n", b""):
        yield f"after quit: {status} {came[:200]!r} {said!r}"
    Path(folder, "m").mkdir()
    for line in (b"save m\n", b"load m\n", b"snapshot m\n", b"restore m\n"):
        status, came, said = run(program, ["session", "0.1"], b"hit 0 0 0\n" + line + MANY_LINES,
                                 folder)
        if (status, came, said) != (8, b"ok\n", b"octomap: store fault\n"):
            yield f"after {line!r}: {status} {came[:200]!r} {said!r}"


def leaves_old_bytes_to_their_reader(program, folder):
    """Who reads a file while it is saved anew has the old bytes, and who opens it then the new."""
    path = Path(folder, "m")
    for command, length in (("save", 169), ("snapshot", 170)):
        path.write_bytes(b"old bytes")
        with open(path, "rb") as held:
            done = run(program, ["session", "0.1"], f"hit 0 0 0\n{command} m\n".encode(), folder)
            old = held.read()
        new = path.read_bytes()
        if done != (0, f"ok\nsaved {length}\n".encode(), b"") or old != b"old bytes":
            yield f"{command}: {done}, and its reader has {old[:40]!r}"
        if len(new) != length:
            yield f"{command} leaves {len(new)} bytes"
    if os.listdir(folder) != ["m"]:
        yield f"it leaves {os.listdir(folder)}"


def asks_for_the_second_file_last(program, folder):
    """Where the first of two files is none, the second isn't asked for: here it would fail. Where
    the first is one, it is."""
    Path(folder, "b").mkdir()
    for words in (["merge", "least", "a", "b"], ["table", "a", "b"] + 6 * ["0"]):
        Path(folder, "a").unlink(missing_ok=True)
        asked = run(program, words, b"", folder)
        if asked != (1, b"first refused 33 NoFile\n", b"octomap: refused\n"):
            yield f"{words[0]} of no first file: {asked}"
        Path(folder, "a").write_bytes(b"")
        asked = run(program, words, b"", folder)
        if asked != (1, b"first refused 10 NotOctomap\n", b"octomap: refused\n"):
            yield f"{words[0]} of a bad first file: {asked}"
        Path(folder, "a").write_bytes(bt(0, ""))
        asked = run(program, words, b"", folder)
        if asked != (8, b"", b"octomap: store fault\n"):
            yield f"{words[0]} of a second file that can't be read: {asked}"


def drills_as_its_script_goes(program, folder):
    """A drill sums up the session over its script, and tells the length of the file that a build of
    it writes."""
    script = run(program, ["gen", "1", "3", "50"], b"", folder)[1]
    # Counts are asked in place of `quit`.
    asked = run(program, ["session", "0.05"], script.removesuffix(b"quit\n") + b"counts\n", folder)
    replies = (b"ok hits 50 frees 7349\nok hits 50 frees 6503\nok hits 50 frees 6796\n"
               b"groups 17469 nodes 38133\n")
    if asked != (0, replies, b""):
        yield f"the session: {asked}"
    status, file, _ = run(program, ["build", "0.05"], script, folder)
    if (status, len(file)) != (0, 35_079):
        yield f"the build: {status}, with {len(file)} bytes"
    drill = run(program, ["drill", "1", "3", "50"], b"", folder)
    if drill != (0, b"scans 3 refused 0\nhits 150 frees 20648\ngroups 17469 nodes 38133\n"
                 b"bt 35079\n", b""):
        yield f"the drill: {drill}"


RUNS = [answers_before_it_waits, quits_at_once, runs_out_of_memory, holds_more_than_it_can,
        is_run_once, leaves_old_bytes_to_their_reader, asks_for_the_second_file_last,
        drills_as_its_script_goes]


def differences(program):
    """How the runs go otherwise than they should."""
    found = []
    for live in RUNS:
        with tempfile.TemporaryDirectory() as folder:
            found += [f"rows: {live.__doc__.strip()}\n    {what}" for what in live(program, folder)]
    return found
