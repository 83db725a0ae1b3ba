"""Ctrl-C, SIGTERM and SIGHUP: when they are taken, and what they leave."""

import os
import pty
import signal
import subprocess
import sys
import time
import unittest
from unittest import mock

from running import OLD_MAP, InFolder

CLOUD = b"2 0 0\n"
SIGNALS = (signal.SIGINT, signal.SIGTERM, signal.SIGHUP)
# How a process ends by Ctrl-C, of which a shell makes the status 130.
BY_CTRL_C = -signal.SIGINT
# Scans that last, as a scan of very many beams does: the library is at work, and Python waits.
SLOW = """
import time
from octofix.mapping import mapper
from octofix._program import run
scan = mapper.do_scan
def slow(*words):
    print("begun", flush=True)
    time.sleep(%s)
    scan(*words)
mapper.do_scan = slow
run()
"""
# A second signal, which comes while it is told that the first one came.
TWICE = """
import os, signal
from octofix import _program
from octofix.cli import command
def say(text):
    os.kill(os.getpid(), signal.%s)
command.say = say
_program.run()
"""
# A signal as soon as one is heard.
EARLY = """
import os, signal
from octofix._program import run
hear, heard = signal.signal, []
def come(number, handler):
    before = hear(number, handler)
    if number == signal.SIGINT and not heard:
        heard.append(number)
        os.kill(os.getpid(), number)
    return before
signal.signal = come
run()
"""
# A second signal on the way from where the first one is raised to the end.
ON_THE_WAY = """
import os, signal
from octofix._program import run
from octofix.cli import interrupts
held = interrupts.Interrupts.held
def come(it, what):
    if what == interrupts.END:
        os.kill(os.getpid(), signal.SIGINT)
    return held(it, what)
interrupts.Interrupts.held = come
run()
"""
CLEANING = """
import os, signal
from octofix._program import run
from octofix import _files
discard = _files.Output.discard
def come(it):
    os.kill(os.getpid(), signal.%s)
    discard(it)
_files.Output.discard = come
run()
"""
# One that is raised as an object goes, where Python can't raise it further.
LOST = """
import os, signal
from octofix._program import run
from octofix.cli import command
class Gone:
    def __del__(self):
        os.kill(os.getpid(), signal.SIGINT)
parsed = command._parsed
def parse(*words):
    Gone()
    return parsed(*words)
command._parsed = parse
run()
"""
# Whoever hears the signals hasn't gone when one comes behind all that the command does.
BEHIND = """
import os, signal
from octofix._program import run
from octofix.cli.interrupts import INTERRUPTS
class Heard:
    def __enter__(self):
        self.it = heard()
        return self.it.__enter__()
    def __exit__(self, *of):
        os.kill(os.getpid(), signal.SIGINT)
        return self.it.__exit__(*of)
heard, INTERRUPTS.heard = INTERRUPTS.heard, Heard
run()
"""
# Another library that does so.
IMPORTING = """
import os, signal, sys
try:
    os.kill(os.getpid(), signal.SIGINT)
except BaseException:
    print("Error in generated code", file=sys.stderr)
    raise ImportError("it is broken")
"""
# A numpy during whose import signals come, and what they raise is lost.
INTERRUPTING = """
import os, signal, sys
try:
    for it in %s:
        os.kill(os.getpid(), it)
except BaseException:
    raise ImportError("multiarray failed to import") from None
sys.path = [it for it in sys.path if os.path.abspath(it) != os.getcwd()]
del sys.modules["numpy"]
import numpy
"""


def content_of(name):
    with open(name, "rb") as file:
        return file.read()


def heard():
    """Lets a process hear the signals, which a shell's job in the background may not."""
    for it in SIGNALS:
        signal.signal(it, signal.SIG_DFL)


def hung_up():
    heard()
    signal.signal(signal.SIGHUP, signal.SIG_IGN)


class Processes(InFolder):
    def setUp(self):
        super().setUp()
        for name, content in (("a.bt", OLD_MAP), ("a.xyz", CLOUD), ("b.xyz", CLOUD)):
            with open(name, "wb") as file:
                file.write(content)
        self.done("map", "--res", "0.1", "a.xyz", "-o", "wanted.bt")
        self.before = set(os.listdir())

    def start(self, *words, before=heard, stderr=subprocess.PIPE):
        call = [sys.executable, *words]
        return subprocess.Popen(call, stdout=subprocess.PIPE, stderr=stderr, preexec_fn=before)

    def map(self, *clouds, **how):
        words = "map", "--res", "0.1", "--quiet", *clouds, "-o", "a.bt"
        return self.start("-m", "octofix", *words, **how)

    def ends(self, run, said, status=130):
        """Waits for the end, and for these lines."""
        _, came = run.communicate(timeout=30)
        self.assertEqual((came.decode(), run.returncode), (said, status))
        self.assertEqual(set(os.listdir()), self.before)

    def pipe(self):
        """A cloud that is being read until this is closed."""
        os.mkfifo("wait.xyz")
        self.before.add("wait.xyz")

    @staticmethod
    def opened():
        return os.open("wait.xyz", os.O_WRONLY)


class Reading(Processes):
    def test_before_the_first_scan(self):
        """The old map stands, and no part of a new one."""
        self.pipe()
        for it, name in zip(SIGNALS, ("Ctrl-C", "SIGTERM", "SIGHUP")):
            run = self.map("wait.xyz", "a.xyz")
            held = self.opened()
            run.send_signal(it)
            said = f"octofix: stopped by {name} before the first scan: nothing is written\n"
            self.ends(run, said, BY_CTRL_C if it == signal.SIGINT else 130)
            os.close(held)
            self.assertEqual(content_of("a.bt"), OLD_MAP)

    def test_between_scans(self):
        self.pipe()
        for it, name in ((signal.SIGTERM, "SIGTERM"), (signal.SIGHUP, "SIGHUP")):
            run = self.map("a.xyz", "wait.xyz")
            held = self.opened()
            run.send_signal(it)
            self.ends(run, f"octofix: stopped by {name}: the map has the scans until then\n")
            os.close(held)
            self.assertEqual(content_of("a.bt"), content_of("wanted.bt"))

    def test_what_is_to_be_ignored(self):
        """As nohup starts it."""
        self.pipe()
        run = self.map("wait.xyz", before=hung_up)
        held = self.opened()
        run.send_signal(signal.SIGHUP)
        os.write(held, CLOUD)
        os.close(held)
        self.ends(run, "", status=0)
        self.assertEqual(content_of("a.bt"), content_of("wanted.bt"))

    def test_a_terminal_that_is_closed(self):
        """Nothing can be said any more, and the map is written."""
        self.pipe()
        ours, theirs = pty.openpty()
        run = self.map("a.xyz", "wait.xyz", stderr=theirs)
        os.close(theirs)
        held = self.opened()
        os.close(ours)
        run.send_signal(signal.SIGHUP)
        run.send_signal(signal.SIGHUP)
        self.assertEqual(run.wait(30), 130)
        run.stdout.close()
        os.close(held)
        self.assertEqual(content_of("a.bt"), content_of("wanted.bt"))

    def test_while_numpy_is_imported(self):
        """A second one ends it at once, without a word."""
        os.mkdir("numpy")
        self.before.add("numpy")
        once = [signal.SIGINT], "octofix: stopped by Ctrl-C\n", BY_CTRL_C
        for signals, said, status in (once, ([2, 2], "", BY_CTRL_C), ([15, 15], "", 130)):
            with open("numpy/__init__.py", "w") as file:
                file.write(INTERRUPTING % list(map(int, signals)))
            self.ends(self.map("a.xyz"), said, status)
            self.assertEqual(content_of("a.bt"), OLD_MAP)

    def test_twice_on_the_way(self):
        """The second one ends it; a terminal that is closed sends several."""
        self.pipe()
        for code, number, said, status in (
            (ON_THE_WAY, signal.SIGINT, "", BY_CTRL_C),
            (CLEANING % "SIGINT", signal.SIGINT, "octofix: ended at once: nothing is written\n",
             BY_CTRL_C),
            (CLEANING % "SIGHUP", signal.SIGHUP, "octofix: stopped by SIGHUP before the first "
             "scan: nothing is written\n", 130),
        ):  # fmt: skip
            run = self.start("-c", code, "map", "--res", "0.1", "wait.xyz", "-o", "a.bt")
            held = self.opened()
            run.send_signal(number)
            self.ends(run, said, status)
            os.close(held)
            self.assertEqual(content_of("a.bt"), OLD_MAP)

    def test_one_that_is_lost(self):
        """It comes again, and no traceback is shown."""
        self.pipe()
        run = self.start("-c", LOST, "map", "--res", "0.1", "wait.xyz", "-o", "a.bt")
        _, said = run.communicate(timeout=30)
        self.assertRegex(said, rb"^octofix: stopped by Ctrl-C[^\n]*\n$")
        self.assertEqual((run.returncode, set(os.listdir())), (BY_CTRL_C, self.before))

    def test_behind_all(self):
        """What is done stays done."""
        self.ends(self.start("-c", BEHIND, "--version"), "", 0)
        self.ends(self.start("-c", BEHIND, "map", "--res", "0.1", "--quiet", "a.xyz", "-o", "a.bt"),
                  "", 0)  # fmt: skip
        self.assertEqual(content_of("a.bt"), content_of("wanted.bt"))

    def test_twice_at_the_end(self):
        """The second one ends it, without a word."""
        self.pipe()
        for it, status in ((signal.SIGINT, BY_CTRL_C), (signal.SIGTERM, 130)):
            words = "map", "--res", "0.1", "wait.xyz", "-o", "a.bt"
            run = self.start("-c", TWICE % it.name, *words)
            held = self.opened()
            run.send_signal(it)
            self.ends(run, "", status)
            os.close(held)


class Start(Processes):
    def test_while_the_tools_are_imported(self):
        """Without a word, also as pip starts them."""
        with open("argparse.py", "w") as file:
            file.write("import os, signal\nos.kill(os.getpid(), signal.SIGINT)\n")
        self.before.add("argparse.py")
        for words in (["-m", "octofix"], ["-c", "from octofix.__main__ import run; run()"]):
            self.ends(self.start(*words, "info", "a.bt"), "", BY_CTRL_C)

    def test_as_soon_as_signals_are_heard(self):
        run = self.start("-c", EARLY, "info", "wanted.bt")
        self.ends(run, "octofix: stopped by Ctrl-C\n", BY_CTRL_C)

    def test_while_a_library_is_imported(self):
        """Which turns what is raised into a fault of its own."""
        os.mkdir("scipy")
        self.before.add("scipy")
        for name, content in (("__init__", ""), ("spatial", IMPORTING)):
            with open(f"scipy/{name}.py", "w") as file:
                file.write(content)
        run = self.start("-m", "octofix", "compare", "wanted.bt", "wanted.bt")
        self.ends(run, "octofix: stopped by Ctrl-C\n", BY_CTRL_C)

    def test_before_the_command_is_found(self):
        """`python3 -m octofix` is quiet as soon as Python comes to the package; who imports it
        keeps his own handler."""
        work = "import sys; sys.argv = {}; import octofix, signal; print(repr(signal.getsignal(2)))"
        for words, wanted in ((["-m"], "SIG_DFL"), (["-c"], "default_int_handler")):
            run = self.start("-c", work.format(words), "-m", "octofix")
            came, _ = run.communicate(timeout=30)
            self.assertIn(wanted, came.decode())

    def test_without_the_library(self):
        """One line, and no map."""
        with mock.patch.dict(os.environ, OCTOFIX_LIBRARY="/nowhere.so"):
            run = self.map("a.xyz")
        _, said = run.communicate(timeout=30)
        wanted = rb"^octofix: the library [^\n]* can't be loaded[^\n]*/nowhere.so.*\n$"
        self.assertRegex(said, wanted)
        self.assertEqual((run.returncode, content_of("a.bt")), (4, OLD_MAP))

    def test_without_docstrings(self):
        """As Python is to optimize."""
        run = self.start("-OO", "-m", "octofix", "info", "wanted.bt")
        came, said = run.communicate(timeout=30)
        self.assertEqual((came[:10], said, run.returncode), (b"resolution", b"", 0))

    def test_without_numpy(self):
        with open("numpy.py", "w") as file:
            file.write("raise ModuleNotFoundError('it is gone', name='numpy')\n")
        self.before.add("numpy.py")
        said = "octofix: the Python library numpy is needed (in Debian python3-numpy)\n"
        self.ends(self.map("a.xyz"), said, status=4)


class Scanning(Processes):
    def slow_map(self, seconds, *more):
        """A map of two scans of so many seconds each, of which the first has begun."""
        words = "map", "--res", "0.1", "--quiet", "a.xyz", "b.xyz", "-o", "a.bt"
        run = self.start("-c", SLOW % seconds, *words, *more)
        self.assertEqual(run.stdout.readline(), b"begun\n")
        return run

    def test_once(self):
        """It says what it waits for, and the map has that scan, in each region."""
        run = self.slow_map(0.5)
        run.send_signal(signal.SIGINT)
        said = "octofix: Ctrl-C waits for the running scan; a second Ctrl-C ends at once\n"
        said += "octofix: stopped by Ctrl-C: the map has the scans until then\n"
        self.ends(run, said, BY_CTRL_C)
        self.assertEqual(content_of("a.bt"), content_of("wanted.bt"))

    def test_once_by_threads(self):
        """While regions do scans that were read before; the last one of them, or not."""
        run = self.slow_map(0.5, "--jobs", "3")
        run.send_signal(signal.SIGINT)
        _, said = run.communicate(timeout=30)
        self.assertEqual(run.returncode, BY_CTRL_C)
        self.assertRegex(said.decode(), "^octofix: Ctrl-C waits for the running scans; a second "
                         "Ctrl-C ends at once\noctofix: stopped by Ctrl-C(: the map .*)?\n$")
        self.assertEqual(content_of("a.bt"), content_of("wanted.bt"))

    def test_twice(self):
        run = self.slow_map(60)
        began = time.monotonic()
        said = "octofix: SIGTERM waits for the running scan; a second Ctrl-C ends at once\n"
        run.send_signal(signal.SIGTERM)
        self.assertEqual(run.stderr.readline().decode(), said)
        run.send_signal(signal.SIGINT)
        self.ends(run, "octofix: ended at once: nothing is written\n")
        self.assertLess(time.monotonic() - began, 10)
        self.assertEqual(content_of("a.bt"), OLD_MAP)

    def test_ctrl_c_twice(self):
        run = self.slow_map(60)
        run.send_signal(signal.SIGINT)
        said = "octofix: Ctrl-C waits for the running scan; a second Ctrl-C ends at once\n"
        self.assertEqual(run.stderr.readline().decode(), said)
        run.send_signal(signal.SIGINT)
        self.ends(run, "octofix: ended at once: nothing is written\n", BY_CTRL_C)

    def test_a_terminal_that_is_closed(self):
        """Several SIGHUP are one."""
        run = self.slow_map(0.5)
        for _ in range(3):
            run.send_signal(signal.SIGHUP)
            time.sleep(0.05)
        said = "octofix: SIGHUP waits for the running scan; a second Ctrl-C ends at once\n"
        said += "octofix: stopped by SIGHUP: the map has the scans until then\n"
        self.ends(run, said)
        self.assertEqual(content_of("a.bt"), content_of("wanted.bt"))


if __name__ == "__main__":
    unittest.main()
