"""Libraries that are used where they are there."""

import contextlib
import importlib
import signal

from .errors import MissingLibrary

_SIGNALS = {signal.SIGINT, signal.SIGTERM, signal.SIGHUP}

# The packages that have them.
PACKAGES = {
    "PIL.Image": "in Debian python3-pil",
    "distributed": "in Debian python3-distributed",
    "laspy": "on PyPI laspy[lazrs]",
    "rosbag": "in Debian python3-rosbag",
    "scipy.spatial": "in Debian python3-scipy",
    "tqdm": "in Debian python3-tqdm",
}


def wanted(module):
    """The module, or None where it isn't there, or can't be loaded."""
    return _loaded(module)[0]


def lack(module):
    """What is needed for the module, or None where it is there."""
    found, why = _loaded(module)
    if found is not None:
        return None
    name = module.split(".")[0]
    if isinstance(why, ModuleNotFoundError) and (why.name or "").split(".")[0] == name:
        return f"the Python library {name} ({PACKAGES[module]})"
    return f"the Python library {name}, which can't be loaded: {' '.join(str(why).split())}"


def needed(module, purpose):
    """The module; a sentence that says what is needed where it isn't there."""
    lacking = lack(module)
    if lacking:
        raise MissingLibrary(f"{purpose} needs {lacking}")
    return wanted(module)


def _loaded(module):
    """The module, and why there is none, as where it was built for another numpy."""
    try:
        with _unheard():
            return importlib.import_module(module), None
    except MemoryError:
        raise
    except Exception as why:
        return None, why


@contextlib.contextmanager
def _unheard():
    """Signals wait: what they raise a library may turn into faults of its own as it is imported."""
    before = signal.pthread_sigmask(signal.SIG_BLOCK, _SIGNALS)
    try:
        yield
    finally:
        signal.pthread_sigmask(signal.SIG_SETMASK, before)
