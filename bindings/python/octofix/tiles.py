"""`octofix.mapping.tiles` under its old name."""

from octofix.mapping.tiles import BadTiles, Leaves, Part, Tiles, abandon, add, build, create

__all__ = ["BadTiles", "Leaves", "Part", "Tiles", "abandon", "add", "build", "create"]
