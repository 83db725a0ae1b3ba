"""The maps of tiles that are in memory, no more of them than fit."""

from __future__ import annotations

from collections import OrderedDict

from octofix import Map

from . import folder as files
from .lattice import Place
from .parts import moved
from .plans import Settings
from .steps import new_map


class Cache:
    """Maps of tiles, of at most so many bytes beside the one that was asked for last."""

    def __init__(self, folder: str, settings: Settings, entries: dict[Place, dict], most: int):
        self._folder, self._settings, self._entries, self._most = folder, settings, entries, most
        self._maps: OrderedDict[tuple[Place, bool], tuple[Map, int]] = OrderedDict()
        # How many maps were read, and the bytes of those that are there.
        self.loads = self.memory = 0

    def map(self, tile: Place, is_walled: bool = False) -> Map:
        """A tile's own map, which the next call may close. Walled, all around the tile is free."""
        key = tile, is_walled
        if key not in self._maps:
            world = self._read(tile, is_walled)
            self._maps[key] = world, world.memory
            self.memory += world.memory
            self.loads += 1
        self._maps.move_to_end(key)
        while self.memory > self._most and len(self._maps) > 1:
            self._drop()
        return self._maps[key][0]

    def close(self) -> None:
        while self._maps:
            self._drop()

    def _drop(self) -> None:
        _, (world, memory) = self._maps.popitem(last=False)
        self.memory -= memory
        world.close()

    def _read(self, tile: Place, is_walled: bool) -> Map:
        world = new_map(self._settings)
        if tile in self._entries:
            world.load_snapshot(files.read_tile(self._folder, tile, self._entries[tile]))
        if is_walled:
            middle = self._settings.lattice().shift(tile)
            return moved(world, self._settings, tile, middle, True)
        return world
