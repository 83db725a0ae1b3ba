"""The files of tiles, and who writes them.

    index.json                what the tiles are, replaced in one step at the end of each run
    tiles/0_-1_0.2-d34db3.snap    a tile as the run 2-d34db3 left it, a snapshot
    runs/2-d34db3.json        what that run has read
    begun.json                the name of the run that was begun and isn't committed
    runs/3-c0ffee/            its plan, its parted scans, what it has made
    lock                      who writes

The index has the bytes and the sum of each file that it names. A file is written beside its place
and renamed when it is whole; one that two workers make has the bytes of whoever was first.
"""

from __future__ import annotations

import contextlib
import errno
import fcntl
import json
import os
import secrets
import shutil
import socket
import zlib
from typing import Any, Iterator

from octofix import _files
from octofix.io.notes import say

from .errors import BadTiles
from .lattice import Place, name_of

FORM = "octofix tiles 1"
INDEX, BEGUN, LOCK, TILES, RUNS = "index.json", "begun.json", "lock", "tiles", "runs"
# What a file system without locks says.
_NO_LOCKS = (errno.ENOLCK, errno.ENOSYS, errno.EOPNOTSUPP)


def read(path: str) -> bytes:
    with open(path, "rb") as file:
        return file.read()


def read_json(path: str) -> Any:
    try:
        return json.loads(read(path))
    except ValueError as error:
        raise BadTiles(f"it isn't whole: {error}", path) from None


def place(path: str, data: bytes, *, is_synced: bool = False) -> None:
    """Writes a file of this name where there is none yet. What a run has for itself needn't be on
    the disk where a machine loses its power: it is looked at, and made again."""
    beside = f"{path}.{secrets.token_hex(6)}"
    try:
        with _files.named(path), open(beside, "xb") as file:
            file.write(data)
            file.flush()
            if is_synced:
                os.fsync(file.fileno())
        with contextlib.suppress(FileExistsError):
            _link(beside, path)
    finally:
        with contextlib.suppress(FileNotFoundError):
            os.unlink(beside)


def _link(beside: str, path: str) -> None:
    try:
        os.link(beside, path)
    except OSError as error:
        if error.errno not in (errno.EPERM, errno.EOPNOTSUPP, errno.ENOSYS):
            raise
        # (a file system without links: whoever is last stays, whole as well)
        os.replace(beside, path)


def dumped(what: Any) -> bytes:
    return json.dumps(what, indent=0, sort_keys=True).encode()


def entry_of(name: str, data: bytes) -> dict[str, Any]:
    """What the index has of a file."""
    return {"file": name, "bytes": len(data), "sum": zlib.crc32(data)}


def checked(folder: str, entry: dict[str, Any], what: str) -> bytes:
    """The content of a file, which has to be that of the index."""
    path = os.path.join(folder, entry["file"])
    try:
        data = read(path)
    except FileNotFoundError:
        raise BadTiles(f"{what} is missing, which the index has", path) from None
    if len(data) != entry["bytes"]:
        raise BadTiles(f"{what} is cut: it has {len(data)} of {entry['bytes']} bytes", path)
    if zlib.crc32(data) != entry["sum"]:
        raise BadTiles(f"{what} is changed: its sum isn't that of the index", path)
    return data


def read_tile(folder: str, tile: Place, entry: dict[str, Any]) -> bytes:
    """The snapshot of a tile."""
    return checked(folder, entry, f"the tile {name_of(tile)}")


def read_index(folder: str) -> dict[str, Any] | None:
    """The index, or None where there is none."""
    path = os.path.join(folder, INDEX)
    try:
        found = read_json(path)
    except FileNotFoundError:
        return None
    except NotADirectoryError:
        raise BadTiles("it is a file, and tiles are a folder", folder) from None
    if not isinstance(found, dict) or found.get("form") != FORM:
        raise BadTiles(f"it isn't the index of tiles ({FORM})", path)
    sum_ = found.pop("sum", None)
    if sum_ != zlib.crc32(dumped(found)):
        raise BadTiles("it is changed: its sum isn't its own", path)
    return found


def write_index(folder: str, index: dict[str, Any]) -> None:
    """Replaces the index in one step."""
    whole = {**index, "sum": zlib.crc32(dumped(index))}
    _files.write(os.path.join(folder, INDEX), dumped(whole))
    sync(folder)


def sync(folder: str) -> None:
    """Sees to it that the names in a folder are on the disk."""
    descriptor = os.open(folder, os.O_RDONLY)
    try:
        # (some file systems can't)
        with contextlib.suppress(OSError):
            os.fsync(descriptor)
    finally:
        os.close(descriptor)


def begun(folder: str) -> str | None:
    """The name of the run that is begun, or None."""
    try:
        return read_json(os.path.join(folder, BEGUN))["run"]
    except FileNotFoundError:
        return None


def forget_begun(folder: str, run: str) -> None:
    """Takes a run away that was begun, with all that it has, but for tiles."""
    with contextlib.suppress(FileNotFoundError):
        os.unlink(os.path.join(folder, BEGUN))
    remove_run(folder, run)


def remove_run(folder: str, run: str) -> None:
    shutil.rmtree(os.path.join(folder, RUNS, run), ignore_errors=True)


def sweep_runs(folder: str, last: int) -> None:
    """Takes away what is left of runs up to the last one, but for their records."""
    for it in os.scandir(os.path.join(folder, RUNS)):
        if it.is_dir() and int(it.name.partition("-")[0]) <= last:
            remove_run(folder, it.name)


def sweep_tiles(folder: str, kept: set[str]) -> None:
    """Takes tiles away whose files aren't among these."""
    for it in os.scandir(os.path.join(folder, TILES)):
        if f"{TILES}/{it.name}" not in kept:
            with contextlib.suppress(FileNotFoundError):
                os.unlink(it.path)


@contextlib.contextmanager
def made(folder: str) -> Iterator[None]:
    """A folder of tiles, which is made where it isn't there, and is gone again where nothing was
    begun in it."""
    is_new = not os.path.isdir(folder)
    os.makedirs(folder, exist_ok=True)
    try:
        yield
    finally:
        if is_new and not {INDEX, BEGUN} & {*os.listdir(folder)}:
            shutil.rmtree(folder, ignore_errors=True)


@contextlib.contextmanager
def writing(folder: str) -> Iterator[None]:
    """One writer at a time, on all machines that have the folder. A lock is gone with its
    process."""
    path = os.path.join(folder, LOCK)
    with open(path, "a+") as file:
        try:
            fcntl.flock(file, fcntl.LOCK_EX | fcntl.LOCK_NB)
        except BlockingIOError:
            file.seek(0)
            who = file.read().strip() or "another process"
            raise BadTiles(f"{who} writes these tiles", folder) from None
        except OSError as error:
            if error.errno not in _NO_LOCKS:
                raise
            say(f"{folder}: its file system has no locks: let one command at a time write there")
        file.truncate(0)
        file.write(f"process {os.getpid()} of {socket.gethostname()}\n")
        file.flush()
        yield
        file.truncate(0)
