"""Until the tools listen, Ctrl-C ends their command without a word. The installed command has it
wait while Python starts."""

# (`signal` takes a while, in which Python would give a traceback)
import _signal

if _signal.getsignal(_signal.SIGINT) is _signal.default_int_handler:
    _signal.signal(_signal.SIGINT, _signal.SIG_DFL)
_signal.pthread_sigmask(_signal.SIG_UNBLOCK, {_signal.SIGINT})
