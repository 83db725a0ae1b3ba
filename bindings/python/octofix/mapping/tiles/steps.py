"""A run, from its plan to its commit. Each step can be done by any process that has the folder and
the clouds, and done twice it does nothing the second time."""

from __future__ import annotations

import argparse
import contextlib
import copy
import functools
import json
import os
import struct
import time
import zlib
from typing import Any, Iterable, Iterator

import octofix
from octofix import Map, Refused
from octofix.io.errors import Torn, Unusable
from octofix.io.notes import kept
from octofix.io.scans import Left, Scan
from octofix.io.skips import Skips

from ..mapper import ScanMapper
from . import folder as files
from .beams import packed, shares, unpacked
from .errors import BadTiles
from .lattice import NANO, Place, name_of, tile_of
from .plans import Plan, Settings, expect_unchanged, new_run, opened, planned

_HEAD = struct.Struct("<8sQ")
_MAGIC = b"OCTBEAM1"
# The points of given scans that are parted at once.
_POINTS = 1 << 21
Told = dict[str, Any]


def path_of(folder: str, run: str, *names: str) -> str:
    return os.path.join(folder, files.RUNS, run, *names)


def new_map(settings: Settings) -> Map:
    """A map of a tile."""
    odds = settings.odds._asdict()
    return Map(settings.resolution / NANO, **odds, max_groups=settings.max_groups)


# -- the plan


def begin(
    folder: str, options: argparse.Namespace, settings: Settings | None, is_again: bool = False
) -> str | None:
    """Begins a run of the clouds that options ask for, or goes on with it; its name, and None where
    the tiles have just these clouds already. `settings` are those of new tiles; None adds to tiles
    that are there."""
    index = _index_for(folder, settings)
    found = (settings or Settings.of(index["settings"])).placed(options.origin, folder)
    plan = planned(options, found, new_run(index["run"] + 1), octofix.__version__)
    if _is_done(folder, index, plan, is_again):
        return None
    if settings is not None and index["run"]:
        raise BadTiles("there are tiles already (octofix tiles add adds scans to them)", folder)
    return begin_plan(folder, index, plan)


def begin_plan(folder: str, index: dict[str, Any], plan: Plan) -> str:
    """Begins a run by its plan, or goes on with one that does the same."""
    before = _begun(folder, index)
    if before is None:
        os.makedirs(path_of(folder, plan.run, "parts"))
        os.makedirs(path_of(folder, plan.run, "made"))
        os.makedirs(os.path.join(folder, files.TILES), exist_ok=True)
        files.place(path_of(folder, plan.run, "plan.json"), json.dumps(plan._asdict()).encode())
        files.place(os.path.join(folder, files.BEGUN), files.dumped({"run": plan.run}))
        before = files.begun(folder)
    if before != plan.run:
        files.remove_run(folder, plan.run)
        if not opened(folder, before)[0].does_the_same(plan):
            said = "another run was begun there, and isn't ended (octofix tiles build FOLDER goes "
            raise BadTiles(f"{said}on with it, octofix tiles abandon FOLDER takes it away)", folder)
    return before


def resume(folder: str) -> str | None:
    """The run that was begun, or None."""
    return _begun(folder, files.read_index(folder) or {"run": 0})


def _index_for(folder: str, settings: Settings | None) -> dict[str, Any]:
    index = files.read_index(folder)
    if settings is None:
        if index is None:
            raise BadTiles("there are no tiles (octofix tiles build FOLDER makes some)", folder)
        return index
    if index is None or index["run"] == 0:
        os.makedirs(folder, exist_ok=True)
        return new_index(settings)
    return index


def new_index(settings: Settings) -> dict[str, Any]:
    """The index of tiles that no run has made."""
    form = {"form": files.FORM, "run": 0, "settings": settings.asdict()}
    return {**form, "runs": [], "tiles": {}, "old": []}


def _begun(folder: str, index: dict[str, Any]) -> str | None:
    run = files.begun(folder)
    if run is not None and int(run.partition("-")[0]) <= index["run"]:
        # (it was ended right after its commit)
        files.forget_begun(folder, run)
        return None
    return run


def _is_done(folder: str, index: dict[str, Any], plan: Plan, is_again: bool) -> bool:
    """Whether the last run did the same; BadTiles where one has had some of the clouds."""
    if is_again:
        return False
    asked = {(name, *stamp) for name, stamp in zip(plan.names, plan.stamps)}
    for entry in reversed(index["runs"]):
        done = record_of(folder, entry)
        if entry is index["runs"][-1] and Plan(**done["plan"]).does_the_same(plan):
            return True
        read = zip(done["plan"]["names"], done["plan"]["stamps"])
        had = asked & {(name, *stamp) for name, stamp in read}
        if had:
            said = "the tiles have this cloud already (--again does the clouds once more)"
            raise BadTiles(said, min(had)[0])
    return False


def record_of(folder: str, entry: dict[str, Any]) -> dict[str, Any]:
    """What is kept of a run: its plan, and what was told of it."""
    return json.loads(files.checked(folder, entry, "the record of a run"))


# -- parting


def chunks(folder: str, run: str) -> range:
    """The numbers of the pieces in which clouds are parted."""
    return range(len(opened(folder, run)[0].chunks))


def part(folder: str, run: str, chunk: int) -> Told:
    """Reads, turns and judges the clouds of a piece, and writes their beams tile by tile."""
    path = _parts(folder, run, chunk)
    if os.path.exists(path):
        return {**_table(path)["told"], "seconds": 0.0, "said": []}
    plan, _ = opened(folder, run)
    _expect_version(plan)
    began = time.process_time()
    first, last = plan.chunks[chunk]
    for name, stamp in zip(plan.names[first:last], plan.stamps[first:last]):
        expect_unchanged(name, stamp)
    told: Told = {"read": sum(size for size, _ in plan.stamps[first:last])}
    with kept() as said:
        scans = _scans_of(folder, run, chunk)
        parted = _parted(scans.of_files(first, last), plan, scans.skips, told)
    told.update(skipped=scans.skips.count, gaps=scans.gaps, left=vars(scans.left), said=said)
    return _write_parts(path, parted, told, began)


def part_given(folder: str, run: str, scans: Iterable[Scan]) -> None:
    """The same of scans that are given, which are pieces of some million points."""
    plan, _ = opened(folder, run)
    chunk, some, points = 0, [], 0
    for scan in scans:
        some.append(scan)
        points += len(scan.points)
        if points >= _POINTS:
            _part_some(folder, plan, chunk, some)
            chunk, some, points = chunk + 1, [], 0
    _part_some(folder, plan, chunk, some)
    files.place(path_of(folder, run, "chunks.json"), files.dumped(chunk + 1))


def _part_some(folder: str, plan: Plan, chunk: int, scans: list[Scan]) -> None:
    told: Told = {"read": 0, "skipped": 0, "gaps": 0, "left": {}, "said": []}
    parted = _parted(scans, plan, Skips(False), told)
    _write_parts(_parts(folder, plan.run, chunk), parted, told, time.process_time())


def _scans_of(folder: str, run: str, chunk: int):
    """The scans of a run as a piece of them needs them, whose first cloud has its number. (Several
    threads may have a piece each.)"""
    plan, scans = opened(folder, run)
    scans = copy.copy(scans)
    scans.clouds = plan.chunks[chunk][0] if scans.is_one_each() else 0
    scans.skips = Skips(plan.options["on_error"] == "skip")
    scans.left, scans.gaps = Left(), 0
    # (what is said once is said of the first)
    scans.said, scans.is_quiet = set(), plan.is_quiet or chunk > 0
    return scans


def _parted(
    scans: Iterable[Scan], plan: Plan, skips: Skips, told: Told
) -> dict[Place, list[bytes]]:
    lattice = Settings.of(plan.settings).lattice()
    parted: dict[Place, list[bytes]] = {}
    told.update(scans=0, points=0)
    for scan in scans:
        try:
            found = shares(scan, lattice, plan.reach)
        except Unusable as why:
            skips.judge(why)
            continue
        for tile, which in found.items():
            parted.setdefault(tile, []).append(packed(scan.origin, scan.points[which]))
        told["scans"] += 1
        told["points"] += len(scan.points)
    return parted


def _write_parts(path: str, parted: dict[Place, list[bytes]], told: Told, began: float) -> Told:
    at, tiles, pieces = 0, {}, []
    for tile, records in parted.items():
        pieces.append(b"".join(records))
        tiles[name_of(tile)] = [at, len(pieces[-1]), zlib.crc32(pieces[-1])]
        at += len(pieces[-1])
    table = json.dumps({"tiles": tiles, "told": {**told, "written": at}}).encode()
    files.place(path, b"".join([_HEAD.pack(_MAGIC, len(table)), table, *pieces]))
    return {**told, "written": at, "seconds": time.process_time() - began}


def _parts(folder: str, run: str, chunk: int) -> str:
    return path_of(folder, run, "parts", f"{chunk:06}.beams")


def _table(path: str) -> dict[str, Any]:
    """What stands where in a file of parts."""
    with open(path, "rb") as file:
        head = file.read(_HEAD.size)
        magic, size = _HEAD.unpack(head) if len(head) == _HEAD.size else (b"", 0)
        table = file.read(size)
    if magic != _MAGIC or len(table) != size:
        raise BadTiles("it is cut or changed (remove it, and it is made again)", path)
    return json.loads(table)


def _expect_version(plan: Plan) -> None:
    if plan.version != octofix.__version__:
        said = f"this worker has octofix {octofix.__version__}, and the run was begun with"
        raise BadTiles(f"{said} {plan.version}")


# -- what is to be made


@functools.lru_cache(4)
def gathered(folder: str, run: str) -> dict[str, Any]:
    """What is to be made once all clouds are parted: `slices`, where the beams of each tile are,
    those with most to do first, and what was `told`, together."""
    path = path_of(folder, run, "tiles.json")
    if not os.path.exists(path):
        files.place(path, json.dumps(_gathered(folder, run)).encode())
    return files.read_json(path)


def _gathered(folder: str, run: str) -> dict[str, Any]:
    slices: dict[str, Any] = {}
    total: dict[str, Any] = {"said": [], "left": {}}
    lacking = [it for it in _all_chunks(folder, run) if not os.path.exists(_parts(folder, run, it))]
    if lacking:
        said = f"{len(lacking)} of {len(_all_chunks(folder, run))} pieces of clouds aren't parted"
        raise BadTiles(f"{said} yet (--part, or no --build, parts them)", folder)
    for chunk in _all_chunks(folder, run):
        table = _table(_parts(folder, run, chunk))
        for name, place in table["tiles"].items():
            slices.setdefault(name, []).append([chunk, *place])
        _add(total, table["told"])
    most = sorted(slices, key=lambda it: -sum(size for _, _, size, _ in slices[it]))
    return {"slices": {it: slices[it] for it in most}, "told": total}


def _all_chunks(folder: str, run: str) -> range:
    plan, _ = opened(folder, run)
    if plan.options is None:
        return range(files.read_json(path_of(folder, run, "chunks.json")))
    return range(len(plan.chunks))


def _add(total: Told, told: Told) -> None:
    for name, it in told.items():
        if name == "left":
            for kind, many in it.items():
                total["left"][kind] = total["left"].get(kind, 0) + many
        else:
            total[name] = total[name] + it if name in total else it


def build(folder: str, run: str, name: str) -> Told:
    """Makes a tile of its beams, and of what it was, and writes its snapshot."""
    done = path_of(folder, run, "made", f"{name}.json")
    with contextlib.suppress(FileNotFoundError):
        try:
            return {**files.read_json(done), "seconds": 0.0}
        except BadTiles:  # (the machine that wrote it lost its power)
            os.unlink(done)
    began = time.process_time()
    plan, scans = opened(folder, run)
    _expect_version(plan)
    settings = Settings.of(plan.settings)
    told: Told = {"scans": 0, "points": 0, "read": 0}
    with new_map(settings) as world:
        _fill(world, folder, plan, name, told)
        world.no_limit()
        data, told["memory"] = world.to_snapshot(), world.memory
        is_known = world.bounds() is not None
    told["entry"] = None  # where beams came near, and nothing is known
    if is_known:
        place = f"{files.TILES}/{name}.{run}.snap"
        files.place(os.path.join(folder, place), data, is_synced=True)
        told["entry"] = files.entry_of(place, data)
    files.place(done, files.dumped(told))
    return {**told, "seconds": time.process_time() - began}


def _fill(world: Map, folder: str, plan: Plan, name: str, told: Told) -> None:
    """Does the beams of a tile in its map, in the order of the run, after what the tile has."""
    tile, lattice = tile_of(name), Settings.of(plan.settings).lattice()
    index = files.read_index(folder)
    if index and name in index["tiles"]:
        try:
            world.load_snapshot(files.read_tile(folder, tile, index["tiles"][name]))
        except Refused:
            raise _full(plan, name) from None
    world.limit(*lattice.window())
    mapper = ScanMapper(world, plan.reach)
    shift = lattice.shift(tile) * lattice.edge
    for slice_ in gathered(folder, plan.run)["slices"][name]:
        data = _beams_of(folder, plan.run, *slice_)
        told["read"] += len(data)
        for origin, beams in unpacked(data):
            try:
                mapper.add(Scan(f"the tile {name}", origin - shift, beams))
            except Torn:
                raise _full(plan, name) from None
    told.update(scans=mapper.scans, points=mapper.points)


def _full(plan: Plan, name: str) -> BadTiles:
    most = plan.settings["max_groups"]
    said = f"the tile {name} is full: it needs more than {most} groups"
    return BadTiles(f"{said} (tiles of a smaller --edge, or with more --max-groups, have room)")


def _beams_of(folder: str, run: str, chunk: int, at: int, size: int, sum_: int) -> bytes:
    path = _parts(folder, run, chunk)
    with open(path, "rb") as file:
        head = file.read(_HEAD.size)
        file.seek(_HEAD.size + _HEAD.unpack(head)[1] + at)
        data = file.read(size)
    if zlib.crc32(data) != sum_:
        raise BadTiles("it is cut or changed (octofix tiles abandon, and begin again)", path)
    return data


# -- the end


def commit(folder: str, run: str) -> dict[str, Any]:
    """Puts the tiles of the run in the index, in one step; BadTiles where one isn't made. Then what
    the run had goes, and what the run before it replaced. What was told of the run."""
    plan, _ = opened(folder, run)
    index = files.read_index(folder) or new_index(Settings.of(plan.settings))
    found, old = gathered(folder, run), []
    for name in found["slices"]:
        entry = _made(folder, run, name)["entry"]
        if entry:
            if name in index["tiles"]:
                old.append(index["tiles"][name]["file"])
            index["tiles"][name] = entry
    record = json.dumps({"plan": plan._asdict(), "told": found["told"]}).encode()
    place = f"{files.RUNS}/{run}.json"
    files.place(os.path.join(folder, place), record, is_synced=True)
    index.update(run=plan.number, settings=plan.settings, old=old)
    index["runs"].append(files.entry_of(place, record))
    files.sync(os.path.join(folder, files.TILES))
    files.write_index(folder, index)
    clear(folder, index)
    return found["told"]


def _made(folder: str, run: str, name: str) -> Told:
    try:
        return files.read_json(path_of(folder, run, "made", f"{name}.json"))
    except FileNotFoundError:
        raise BadTiles(f"the tile {name} of the run {run} isn't made yet", folder) from None


def clear(folder: str, index: dict[str, Any]) -> None:
    """Takes away what no run needs any more. (What the last run has replaced stays for those who
    have opened the tiles before.)"""
    run = files.begun(folder)
    if run is not None:
        files.forget_begun(folder, run)
    kept_ = {it["file"] for it in index["tiles"].values()} | set(index["old"])
    with contextlib.suppress(FileNotFoundError):
        files.sweep_tiles(folder, kept_)
        files.sweep_runs(folder, index.get("run", 0))


def abandon(folder: str) -> str | None:
    """Takes the run away that was begun, and answers its name; None without one. The tiles are as
    they were before it."""
    run = files.begun(folder)
    index = files.read_index(folder) or {"tiles": {}, "old": []}
    clear(folder, index)
    return run


def problems(folder: str, index: dict[str, Any]) -> Iterator[BadTiles]:
    """What is missing, cut or changed of the files of the index."""
    for entry in index["runs"]:
        try:
            record_of(folder, entry)
        except BadTiles as why:
            yield why
    for name, entry in index["tiles"].items():
        try:
            files.read_tile(folder, tile_of(name), entry)
        except BadTiles as why:
            yield why
