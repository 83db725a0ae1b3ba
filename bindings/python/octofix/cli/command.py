"""The command octofix: its subcommands, its statuses, and what is said of a fault."""

import argparse
import contextlib
import importlib
import io
import os
import re
import sys

from octofix.io.errors import Unusable
from octofix.io.notes import say

from .errors import CLOSED_PIPE, INTERRUPTED, MISSING_LIBRARY, UNUSABLE, status_of
from .interrupts import END, INTERRUPTS, START, Abandoned

# What Python says of that.
NO_THREAD = "can't start new thread"
STATUSES = """statuses: 0 done; 1 an input can't be used, an output can't be written, or something
was refused; 2 usage; 3 done, but something was skipped; 4 a Python library isn't there; 130 stopped
by Ctrl-C, SIGTERM or SIGHUP; 141 nobody reads the output any more"""


class LastOne(argparse.Action):
    """Stores a value, as argparse does, and notes in `repeated` an option that had another one, and
    in `foremost` those that stand before the words that no option takes."""

    def __call__(self, parser, namespace, values, option_string=None):
        if option_string and getattr(namespace, self.dest) is not self.default:
            namespace.repeated = [*namespace.repeated, option_string]
        if option_string is None:
            namespace.is_behind = True
        elif not namespace.is_behind:
            namespace.foremost = [*namespace.foremost, self.dest]
        setattr(namespace, self.dest, values)


def parser(commands):
    """The parser of commands: the module of each by its words, of which those of several words
    stand behind the one that they are below."""
    from octofix import __version__

    # (Python that is to optimize leaves texts as these out)
    about = (__doc__ or "").split(":")[0]
    top = argparse.ArgumentParser("octofix", description=about, epilog=STATUSES)
    top.add_argument("--version", action="version", version=f"octofix {__version__}")
    below = {"": top.add_subparsers(dest="command", metavar="COMMAND", required=True)}
    for words, place in commands.items():
        group, _, name = words.rpartition(" ")
        module = importlib.import_module(place)
        each = _add_command(below[group], name, module)
        if not hasattr(module, "run"):
            below[words] = each.add_subparsers(dest="task", metavar="TASK", required=True)
    return top


def _add_command(below, name, module):
    """Adds a subcommand that a module has: HELP, its text, what takes its words, and what runs it;
    one that has commands below itself has its text alone."""
    each = below.add_parser(
        name, help=module.HELP, description=module.__doc__, epilog=STATUSES,
        formatter_class=argparse.RawDescriptionHelpFormatter,
    )  # fmt: skip
    each.register("action", None, LastOne)
    # (else only -1 and -0.1 are numbers, and -1e-3 is an option)
    each._negative_number_matcher = re.compile(r"-\.?[0-9]")
    if hasattr(module, "run"):
        module.arguments(each)
    each.set_defaults(run=getattr(module, "run", None), outputs=getattr(module, "outputs", None))
    each.set_defaults(repeated=[], foremost=[], is_behind=False)
    return each


def run(commands):
    """Runs the command, and ends the process with its status; after Ctrl-C by that signal, since
    by this alone a shell sees that its loop is to end, too."""
    status = main(commands)
    if status == INTERRUPTED:
        INTERRUPTS.end_by_ctrl_c()
    sys.exit(status)


def main(commands, words=None):
    """Runs a subcommand, and answers its exit status."""
    with INTERRUPTS.heard():
        try:
            return _run_to_the_end(commands, words)
        except Abandoned:
            INTERRUPTS.waits_for = END
            say("ended at once: nothing is written")
            # (what is abandoned still runs in its thread)
            INTERRUPTS.end_by_ctrl_c()
            os._exit(INTERRUPTED)
        except KeyboardInterrupt as why:
            # (before any call, in which a second one would be raised)
            INTERRUPTS.waits_for = END
            with INTERRUPTS.held(END):
                say(f"stopped by {INTERRUPTS.name()}{why}")
            return INTERRUPTED
        except ImportError as why:
            is_numpy = why.name == "numpy"
            said = "the Python library numpy is needed (in Debian python3-numpy)"
            say(said if is_numpy else " ".join(str(why).split()))
            return MISSING_LIBRARY


def _run_to_the_end(commands, words):
    """Runs a subcommand. Interrupts are raised within this alone, where main is there for them."""
    try:
        INTERRUPTS.waits_for = None
        return _run(commands, words)
    finally:
        INTERRUPTS.waits_for = END


def _run(commands, words):
    # (where it is closed, what is written to this is a fault)
    sys.stdout = open(os.devnull) if sys.stdout is None else _buffered(sys.stdout)
    with INTERRUPTS.held(START):
        # (this imports numpy and loads the library)
        from octofix import Refused

        top = parser(commands)
    try:
        status = _work(_parsed(top, words))
        sys.stdout.flush()
        return status
    except Unusable as why:
        say(str(why))
        return status_of(why)
    except Refused as refused:
        say(str(refused))
        return UNUSABLE
    except MemoryError as why:
        # (numpy's has the shape and the type of an array behind)
        said = str(why).split(" for an array")[0]
        say("memory ran out" + f": {said}" * bool(said))
        return UNUSABLE
    except RuntimeError as why:
        if str(why) != NO_THREAD:
            raise
        say("no thread can be started: memory or the number of processes is bounded")
        return UNUSABLE
    except BrokenPipeError:
        _give_output_up()
        return CLOSED_PIPE
    except OSError as error:
        if error.filename is None:
            _give_output_up()
        is_closed = isinstance(error, io.UnsupportedOperation)
        said = error.strerror or ("it is closed" if is_closed else error)
        say(f"{error.filename or 'the output'}: {said}")
        return UNUSABLE


def _work(options):
    """Does what the options ask for, and answers the exit status."""
    from .clashes import refuse_clashes
    from .standing import refuse_others

    INTERRUPTS.take()
    if not getattr(options, "quiet", False):
        for it in options.repeated:
            say(f"{it} stands more than once, and the last one counts")
    refuse_clashes(options)
    if options.outputs:
        # (before all the work)
        refuse_others(options.outputs(options), options.force)
    return options.run(options)


def _buffered(stream):
    """The stream; with a buffer where it has none, as PYTHONUNBUFFERED makes it: without one a disk
    that is nearly full gets a part of what is written, and nothing is said."""
    raw = getattr(stream, "buffer", None)
    if not isinstance(raw, io.RawIOBase):
        return stream
    how = {"encoding": stream.encoding, "errors": stream.errors, "line_buffering": True}
    return io.TextIOWrapper(io.BufferedWriter(raw), **how)


def _parsed(top, words):
    """The options; SystemExit where the words are wrong, or ask for a text, which is written."""
    try:
        options, rest = top.parse_known_args(words)
        if rest:
            hint = "" if rest[0].startswith("-") else f" ({_files_of(options)})"
            top.error(f"unrecognized arguments: {' '.join(rest)}{hint}")
        return options
    except SystemExit:
        sys.stdout.flush()
        raise


def _files_of(options):
    """How a subcommand takes files."""
    is_for_many = any(value and isinstance(value, list) for value in vars(options).values())
    return "files stand one after another" if is_for_many else "it takes no more files"


def _give_output_up():
    """Sees to it that nothing is written, and nothing fails, when Python ends."""
    with contextlib.suppress(OSError):
        os.dup2(os.open(os.devnull, os.O_WRONLY), sys.stdout.fileno())
