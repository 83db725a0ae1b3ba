#!/usr/bin/env python3
"""Counts how often a session writes, and talks to one line by line. Fails where the replies to the
questions of one read are written by more writes than they need, where more than sixteen edits share
a write, or few do, or where a reply isn't there before the next line is asked.

    tests/writes.py [--program FILE]

The replies go into a socket that keeps each write as a message of its own. Needs Linux.
"""
import select
import socket
import subprocess
import sys
import tempfile
from pathlib import Path

sys.path.append(str(Path(__file__).resolve().parents[1] / "tools/check"))
import options  # noqa: E402

PROGRAM = options.program(__doc__)
SESSION = [PROGRAM, "session", "0.1"]
MOST_READ = 16 * 1024
MOST_HELD = 4096
MOST_AHEAD = 16
LINES = 20_000
PATIENCE = 10
failed = 0


def say(what, holds, found):
    """A line for a case, and the count of those that don't hold."""
    global failed
    failed += not holds
    print(f"{'stands' if holds else 'FAILS '}  {what}: {found}")


def writes_of(script):
    """What a session over a script in a file writes, write for write."""
    ours, theirs = socket.socketpair(socket.AF_UNIX, socket.SOCK_SEQPACKET)
    with tempfile.TemporaryFile() as lines, tempfile.TemporaryDirectory() as folder:
        lines.write(script)
        lines.seek(0)
        session = subprocess.Popen(SESSION, cwd=folder, stdin=lines, stdout=theirs)
        theirs.close()
        writes = list(iter(lambda: ours.recv(1 << 20), b""))
        ours.close()
        session.wait()
    return writes


def few_writes(line, reply):
    """A question many times over: a write for each read, and for each 4,096 bytes of replies."""
    script, replies = line * LINES, reply * LINES
    most = len(script) // MOST_READ + 1 + len(replies) // MOST_HELD
    writes = writes_of(script)
    say(f"{LINES} times {line.decode().rstrip()!r} take at most {most} writes",
        b"".join(writes) == replies and len(writes) <= most, len(writes))


def few_together(line, reply):
    """An edit many times over: those in a row share a write, no more than sixteen of them."""
    script, most = line * LINES, LINES // MOST_AHEAD + 2 * (len(line) * LINES // MOST_READ + 1)
    writes = writes_of(script)
    say(f"{LINES} times {line.decode().rstrip()!r} take at most {most} writes, by {MOST_AHEAD}",
        b"".join(writes) == reply * LINES and len(writes) <= most
        and max(map(len, writes)) <= MOST_AHEAD * len(reply), len(writes))


def changes_in_order():
    """What comes before a change of map or files is written first; what changes nothing isn't."""
    writes = writes_of(b"hit 0 0 0\nget 0 0 0 16\nhit x\ncounts\n# aside\ncast 0 0 0 0 0 0\nclear\n"
                       b"\thit 0 0 0\nsave m\nscan 0 0 0 1 0 0 0 all\np 0 0 0\nend\nload m\n"
                       b"get 0 0 0 16\n")
    wanted = [b"ok\nknown 850 occupied\nrefused 29 Syntax line 3 column 5\n",
              b"groups 16 nodes 17\ncast hit 32768 32768 32768\n", b"ok\n", b"ok\n",
              b"saved 169\n", b"ok hits 1 frees 0\n", b"loaded 17\nknown 3500 occupied\n"]
    say("the replies before a change are written first", writes == wanted, writes)


def dialogue():
    """Each reply is there before the next line is sent."""
    session = subprocess.Popen(SESSION, stdin=subprocess.PIPE, stdout=subprocess.PIPE, bufsize=0)
    for lines, replies in [(b"hit 0 0 0\n", b"ok\n"), (b"get 0 0 0 16\n", b"known 850 occupied\n"),
                           (b"scan 0 0 0 1 0 0 0 all\np 0 0 0\nend\n", b"ok hits 1 frees 0\n"),
                           (b"\n# nothing\ncounts\n", b"groups 16 nodes 17\n")]:
        session.stdin.write(lines)
        came = b""
        while len(came) < len(replies) and select.select([session.stdout], [], [], PATIENCE)[0]:
            came += session.stdout.read(1 << 16) or b"(its end)\n"
        say(f"{lines!r} is answered before the next line", came == replies, came)
    session.stdin.close()
    say("the session is done", session.wait() == 0, session.returncode)


def main():
    few_writes(b"get 1 0 0 16\n", b"unknown\n")
    few_writes(b"cast 0 0 0 1 0 0\n", b"cast unknown 32768 32768 32768\n")
    few_together(b"hit 0 0 0\n", b"ok\n")
    changes_in_order()
    dialogue()
    sys.exit(failed != 0)


if __name__ == "__main__":
    main()
