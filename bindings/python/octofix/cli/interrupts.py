"""Ctrl-C, SIGTERM and SIGHUP at a good moment."""

import contextlib
import os
import signal
import sys
import threading
import time
from functools import partial

from octofix.io.notes import say

from .errors import INTERRUPTED

NAMES = {signal.SIGINT: "Ctrl-C", signal.SIGTERM: "SIGTERM", signal.SIGHUP: "SIGHUP"}
# How often it is looked whether an interrupt waits, in seconds.
LOOK = 0.1
# When one comes again that was lost.
AGAIN = 0.01
# What an interrupt waits for while the tools are imported, and when they are done.
START, END = "the start", "the end"


class Abandoned(KeyboardInterrupt):
    """A second interrupt while the first one waits: the process is to end at once."""


class Interrupts:
    """What is done where one of the signals comes: a KeyboardInterrupt, or within `held` nothing
    before the caller asks by `take`; there a second one is Abandoned. At START and END it ends the
    process by itself: numpy, as it is imported, turns what is raised into faults of its own, and in
    the end nobody is there for it. So it does on the way from what was raised to the end."""

    def __init__(self):
        self._forget()

    def _forget(self):
        self.first = self.waits_for = None
        self.is_waiting = self.is_told = self.is_raised = False

    @contextlib.contextmanager
    def heard(self):
        """Hears the signals; in the main thread, which alone can. At first they wait, as at START:
        who called this isn't there for them yet."""
        self._forget()
        self.waits_for = START
        before, hook = {}, sys.unraisablehook
        try:
            if threading.current_thread() is threading.main_thread():
                sys.unraisablehook = partial(self._come_again, hook)
                for it in filter(_is_to_be_heard, NAMES):
                    before[it] = signal.signal(it, self._come)
            yield
        finally:
            self.waits_for = END
            for it, handler in before.items():
                signal.signal(it, handler)
            sys.unraisablehook = hook

    def _come(self, number, _):
        # (a terminal that is closed may send several signals)
        is_second = self.first not in (None, signal.SIGHUP) and number != signal.SIGHUP
        self.first = self.first or number
        if self.waits_for is None and not self.is_raised:
            self.is_raised = True
            raise KeyboardInterrupt
        if is_second and self.waits_for in (None, START, END):
            self.end_by_ctrl_c()
            os._exit(INTERRUPTED)
        if is_second:
            raise Abandoned
        self.is_waiting = True

    def _come_again(self, hook, lost):
        """Has an interrupt come once more that was raised where nothing can be, as an object goes;
        what else is lost goes to the hook."""
        if not issubclass(lost.exc_type, KeyboardInterrupt):
            hook(lost)
            return
        number, self.first, self.is_raised = self.first, None, False
        threading.Thread(target=self._send_until_heard, args=[number], daemon=True).start()

    def _send_until_heard(self, number):
        """Sends a signal, once more where it came between Python's last look for signals and a call
        that waits; many that come before the next look are one."""
        time.sleep(AGAIN)
        while self.first is None and self.waits_for != END:
            os.kill(os.getpid(), number)
            time.sleep(AGAIN)

    def name(self):
        """What came first."""
        return NAMES.get(self.first, "Ctrl-C")

    def end_by_ctrl_c(self):
        """Ends the process as Ctrl-C does, where it came first."""
        if self.first == signal.SIGINT:
            with contextlib.suppress(OSError):
                sys.stdout.flush()
            signal.signal(signal.SIGINT, signal.SIG_DFL)
            os.kill(os.getpid(), signal.SIGINT)

    @contextlib.contextmanager
    def held(self, what):
        """An interrupt waits for this; None lets it come at once."""
        before, self.waits_for = self.waits_for, what
        try:
            yield
        finally:
            self.waits_for = before

    def take(self):
        """Raises the interrupt that waits, if there is one."""
        if self.is_waiting:
            self.is_waiting = False
            raise KeyboardInterrupt

    def finish(self, what, work, *words):
        """What the work answers, for which an interrupt waits, or one that came before has to, and
        says so. A second one ends this at once, and the work goes on in its thread until the
        process ends."""
        answers, faults, is_done = [], [], threading.Event()

        def do():
            try:
                answers.append(work(*words))
            except BaseException as fault:
                faults.append(fault)
            finally:
                is_done.set()

        with self.held(what):
            threading.Thread(target=do, daemon=True).start()
            while not is_done.wait(LOOK):
                if self.first is not None and not self.is_told:
                    self.is_told = True
                    say(f"{self.name()} waits for {what}; a second Ctrl-C ends at once")
        if faults:
            raise faults[0]
        return answers[0]


def _is_to_be_heard(number):
    """All but what somebody else handles, or ignores on purpose, as nohup does."""
    handler = signal.getsignal(number)
    return number == signal.SIGINT or handler not in (signal.SIG_IGN, None)


INTERRUPTS = Interrupts()
