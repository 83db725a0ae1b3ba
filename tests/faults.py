#!/usr/bin/env python3
"""Runs the program where the world fails it, and says what stood after each fault: a full disk, a
closed pipe, an input that breaks off, a folder in place of a file, a folder that may not be written
in or is gone, and a kill in the middle of a save. Fails where a status, a reply or a file is
another one than docs/FORMATS.md says.

    tests/faults.py [--program FILE]

What needs leave that the caller lacks (a file system of its own) is left out, and said so. A kill
is tried at moments spread over the time that a save takes. Needs Linux.
"""
import os
import pty
import signal
import subprocess
import sys
import tempfile
import time
from pathlib import Path

HERE = Path(__file__).resolve().parent
sys.path.append(str(HERE.parent / "tools/check"))
import options  # noqa: E402

PROGRAM = options.program(__doc__)
SESSION = [PROGRAM, "session", "0.1"]
READ, WRITE, STORE = 5, 6, 8
NOBODY = 65534
failed = 0


def say(what, holds, found=""):
    """A line for a case, and the count of those that don't hold."""
    global failed
    failed += not holds
    print(f"{'stands' if holds else 'FAILS '}  {what}{'' if holds else f': {str(found)[:200]}'}")


def run(script, folder, **how):
    """Status and replies of a session over a script in a folder."""
    done = subprocess.run(SESSION, input=script, cwd=folder, stdout=subprocess.PIPE,
                          stderr=subprocess.DEVNULL, **how)
    return done.returncode, done.stdout


def expect(what, came, status, replies):
    say(what, came == (status, replies), came)


def names_in(folder):
    return sorted(os.listdir(folder))


def full_output(folder):
    with open("/dev/full", "wb") as full:
        status = subprocess.run(SESSION, input=b"hit 0 0 0\nsave m\n", cwd=folder, stdout=full,
                                stderr=subprocess.DEVNULL).returncode
    say("a full disk under the output: write fault", status == WRITE, status)
    say("  and no file is saved after it", names_in(folder) == [], names_in(folder))


def closed_pipe(folder):
    session = subprocess.Popen(SESSION, cwd=folder, stdin=subprocess.PIPE, stdout=subprocess.PIPE,
                               stderr=subprocess.DEVNULL)
    session.stdout.close()
    try:
        session.stdin.write(b"hit 0 0 0\n" * 2000)
        session.stdin.close()
    except BrokenPipeError:
        pass
    status = session.wait()
    say("nobody reads the output any more: write fault", status == WRITE, status)


def broken_input(folder):
    itself = os.open(folder, os.O_RDONLY)
    status = subprocess.run(SESSION, stdin=itself, stdout=subprocess.DEVNULL,
                            stderr=subprocess.DEVNULL).returncode
    os.close(itself)
    say("a folder as the input: read fault", status == READ, status)
    ours, theirs = pty.openpty()
    session = subprocess.Popen(SESSION, cwd=folder, stdin=ours, stdout=subprocess.PIPE,
                               stderr=subprocess.DEVNULL)
    os.close(ours)
    os.write(theirs, b"hit 0 0 0\nget 0 0 0 16\nhit 0 0")
    replies = session.stdout.readline() + session.stdout.readline()
    os.close(theirs)
    replies += session.stdout.read()
    came = session.wait(), replies
    expect("a terminal that goes away in a line: the lines before it are answered", came, READ,
           b"ok\nknown 850 occupied\n")


def folder_for_a_file(folder):
    (folder / "m").mkdir()
    expect("save over a folder: store fault", run(b"hit 0 0 0\nsave m\n", folder), STORE, b"ok\n")
    say("  nothing is left of that save", names_in(folder) == ["m"], names_in(folder))
    expect("load of a folder: store fault", run(b"load m\n", folder), STORE, b"")
    done = subprocess.run([PROGRAM, "merge", "first", "m", "m"], cwd=folder,
                          stdout=subprocess.PIPE, stderr=subprocess.DEVNULL)
    expect("merge of a folder: store fault", (done.returncode, done.stdout), STORE, b"")
    (folder / "m").rmdir()


def folder_without_leave(folder):
    (folder / "old").write_bytes(b"as it was")
    folder.chmod(0o555)
    how = {"user": NOBODY, "group": NOBODY} if os.geteuid() == 0 else {}
    expect("save in a folder that may not be written in: store fault",
           run(b"hit 0 0 0\nsave old\n", folder, **how), STORE, b"ok\n")
    folder.chmod(0o755)
    say("  the old file is whole", (folder / "old").read_bytes() == b"as it was")
    say("  and nothing stands beside it", names_in(folder) == ["old"], names_in(folder))


def folder_gone(folder):
    gone = folder / "gone"
    gone.mkdir()
    remove = {"preexec_fn": lambda: os.rmdir(gone)}
    expect("load in a folder that is gone: no file", run(b"load m\n", gone, **remove), 1,
           b"refused 33 NoFile\n")
    gone.mkdir()
    expect("save in a folder that is gone: store fault",
           run(b"hit 0 0 0\nsave m\n", gone, **remove), STORE, b"ok\n")


def full_disk(folder):
    """A file system of 12 kB, in a space of its own that ends with the session, and a save that
    doesn't fit beside the old file."""
    voxels = [(x, y, z) for x in range(12) for y in range(12) for z in range(12)]
    script = b"".join(b"hit %d.05 %d.05 %d.05\n" % voxel for voxel in voxels) + b"save old\n"
    mount = "mkdir disk && mount -t tmpfs -o size=12k none disk && cd disk && printf whole >old && "
    after = "; status=$?; cat old; ls -A | tr '\\n' ' '; exit $status"
    line = f"{mount}{SESSION[0]} session 0.1 >/dev/null 2>&1{after}"
    done = subprocess.run(["unshare", "-rm", "sh", "-c", line], input=script, cwd=folder,
                          stdout=subprocess.PIPE, stderr=subprocess.PIPE)
    if b"unshare" in done.stderr or b"mount" in done.stderr:
        print("left out  a full disk under the store: no leave to make one")
        return
    came = done.returncode, done.stdout
    expect("a full disk under the store: store fault, the old file is whole", came, STORE,
           b"wholeold ")


def largest_file(folder):
    """A limit on the length of files stands in for a full disk where none can be made."""
    (folder / "old").write_bytes(b"as it was")

    def limited():
        import resource
        signal.signal(signal.SIGXFSZ, signal.SIG_IGN)
        resource.setrlimit(resource.RLIMIT_FSIZE, (64, 64))
    expect("a file that may not get long enough: store fault",
           run(b"hit 0 0 0\nsave old\n", folder, preexec_fn=limited), STORE, b"ok\n")
    say("  the old file is whole", (folder / "old").read_bytes() == b"as it was")
    say("  and nothing stands beside it", names_in(folder) == ["old"], names_in(folder))


def killed(folder):
    """Kills at twenty moments of a save, each over the old file of another map."""
    scans = subprocess.run([sys.executable, HERE.parent / "bench/make_scans.py", "1", "5", "500"],
                           stdout=subprocess.PIPE, check=True).stdout.replace(b"quit\n", b"")
    start = time.monotonic()
    run(scans, folder)
    middle = time.monotonic()
    run(scans + b"save m\n", folder)
    new, length = (folder / "m").read_bytes(), time.monotonic() - middle
    first = middle - start
    old, kept = b"the old file", [0, 0]
    torn = 0
    for turn in range(20):
        (folder / "m").write_bytes(old)
        session = subprocess.Popen(SESSION, cwd=folder, stdin=subprocess.PIPE,
                                   stdout=subprocess.DEVNULL, stderr=subprocess.DEVNULL)
        session.stdin.write(scans + b"save m\n")
        session.stdin.flush()
        time.sleep(max(0.0, first + (length - first) * turn / 19))
        session.kill()
        session.wait()
        stands = (folder / "m").read_bytes()
        torn += stands not in (old, new)
        kept[stands == new] += 1
    say(f"killed at 20 moments: {kept[0]} times the old file, {kept[1]} times the new one",
        torn == 0, f"{torn} torn files")
    expect("  a save after that answers as ever", run(b"hit 0 0 0\nsave m\n", folder), 0,
           b"ok\nsaved 169\n")
    say("  and leaves its file alone", names_in(folder) == ["m"], names_in(folder))


def main():
    for case in (full_output, closed_pipe, broken_input, folder_for_a_file, folder_without_leave,
                 folder_gone, full_disk, largest_file, killed):
        with tempfile.TemporaryDirectory() as room:
            os.chmod(room, 0o755)
            case(Path(room))
    sys.exit(1 if failed else 0)


main()
