"""How Ctrl-C ends a script of this folder."""
import contextlib
import signal


@contextlib.contextmanager
def silent():
    """Within this Ctrl-C ends the process by its signal, without a traceback, once what is within
    has cleaned up: also one that came as Python started, when building.sh blocks it."""
    try:
        signal.pthread_sigmask(signal.SIG_UNBLOCK, [signal.SIGINT])
        yield
    except KeyboardInterrupt:
        signal.signal(signal.SIGINT, signal.SIG_DFL)
        signal.raise_signal(signal.SIGINT)
