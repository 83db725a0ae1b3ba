"""Bytes in: files, gzip, and the standard input under the name '-'."""

import contextlib
import errno
import gzip
import io
import os
import stat
import sys
import zlib

from .errors import Unusable
from .memory import free_memory

GZIP = b"\x1f\x8b"
PIECE = 1 << 16
# What a file of a map, or of poses, may have.
MOST_BYTES = 1 << 30


def read_bytes(name, most=sys.maxsize):
    """The content of a file, unpacked where it is gzip's; Unusable where it has more bytes than
    `most`, or than memory has room for: a device, a pipe and what is packed may have no end."""
    try:
        # (before: Python doesn't hear a signal that comes right before it waits for a pipe, so that
        # little is to be done from when it is opened)
        free = free_memory()
        with _input(name) as file:
            content = _content_of(file, most, free)
        if content.startswith(GZIP):
            packed = gzip.GzipFile(fileobj=io.BytesIO(content))
            content = _in_pieces(packed, most, free_memory())
        return content
    except Unusable as why:
        raise why.named(name)
    except MemoryError:
        raise Unusable("memory ran out as it was read", name) from None
    except (EOFError, zlib.error, gzip.BadGzipFile) as error:
        raise Unusable(f"it isn't whole gzip data: {error}", name) from None
    except OSError as error:
        raise Unusable(error.strerror or str(error), name) from None


def _input(name):
    if name != "-":
        return open(name, "rb")
    if sys.stdin is None:
        raise OSError(errno.EBADF, os.strerror(errno.EBADF))
    return contextlib.nullcontext(sys.stdin.buffer)


def _content_of(file, most, free):
    with contextlib.suppress(io.UnsupportedOperation):
        status = os.fstat(file.fileno())
        if stat.S_ISREG(status.st_mode):
            expect_room(status.st_size, free, most)
            return file.read()
    return _in_pieces(file, most, free)


def _in_pieces(file, most, free):
    """What a file has that may have no end; it may take half of the memory that is free."""
    found = io.BytesIO()
    while piece := file.read(PIECE):
        expect_room(found.tell() + len(piece), free // 2, most)
        found.write(piece)
    if piece is None:  # (there is more to come, and it isn't waited for)
        raise BlockingIOError(errno.EAGAIN, os.strerror(errno.EAGAIN))
    return found.getvalue()


def expect_room(size, room, most=sys.maxsize):
    """Unusable where so many bytes are more than memory has room for, or than `most`."""
    if size > min(most, room):
        said = "such a file has at most" if most < room else "memory has room for"
        raise Unusable(f"it is too large, or has no end: {said} {min(most, room):,} bytes")
