"""Whole runs, by an engine."""

from __future__ import annotations

from typing import Any

from . import engines, steps


def unheard(*_: Any) -> None:
    """Hears of each task that is done, and says nothing."""


def do(folder: str, run: str, engine: engines.Engine, told: engines.Heard = unheard) -> steps.Told:
    """Does what is left of a run that was begun, and commits it. What was told of the run."""
    engines.each(engine, steps.part, folder, run, steps.chunks(folder, run), told)
    return build(folder, run, engine, told)


def build(
    folder: str, run: str, engine: engines.Engine, told: engines.Heard = unheard
) -> steps.Told:
    """The same of a run whose clouds are parted."""
    names = [*steps.gathered(folder, run)["slices"]]
    engines.each(engine, steps.build, folder, run, names, told)
    return {**steps.commit(folder, run), "tiles": len(names)}


def share(jobs, number: int, count: int) -> list:
    """The Kth of N shares of what is to be done, of which those with most stand first."""
    return [*jobs][number - 1 :: count]
