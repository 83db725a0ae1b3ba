"""Random calls of the library, and what the native one answers, for calls.mjs to do again."""

import hashlib
import json
from pathlib import Path

import numpy as np

import octofix

KINDS = ("known", "occupied", "free")
RESOLUTIONS = (0.05, 0.1, 0.2, 0.37)
OUTSIDE = (1e5, -1e6, 1e8, np.nan)


def sum_of(*parts):
    """One sum for all bytes of these arrays."""
    made = hashlib.sha256()
    for it in parts:
        made.update(it if isinstance(it, bytes) else np.ascontiguousarray(it).tobytes())
    return made.hexdigest()


class Calls:
    """Calls of one map after another. `rows` has of each its name, what it is passed, arrays by
    where their numbers stand, and its answer, arrays by their sum."""

    def __init__(self, seed, count):
        self.draw = np.random.default_rng(seed)
        self.numbers, self.length, self.rows = [], 0, []
        while len(self.rows) < count:
            self.do_map()

    def write(self, folder):
        numbers = np.concatenate(self.numbers).astype("<f8")
        Path(folder, "numbers.bin").write_bytes(numbers.tobytes())
        Path(folder, "calls.json").write_text(json.dumps(self.rows))

    def keep(self, values):
        """Where the numbers of an array stand."""
        data = np.ascontiguousarray(values, "<f8").ravel()
        self.numbers.append(data)
        self.length += len(data)
        return [self.length - len(data), len(data)]

    def ask(self, name, passed, call):
        try:
            answer = call()
        except octofix.Refused as why:
            answer = {"refused": str(why)}
        except octofix.BadPoints as why:
            answer = {"bad": [why.what, why.index]}
        self.rows.append([name, passed, answer])

    def chance(self, share):
        return bool(self.draw.random() < share)

    def points(self, most, spread=1.5):
        """Points, some of them far away, on the faces of voxels or at halves of nanometres."""
        found = self.draw.normal(0, spread, (int(self.draw.integers(1, most)), 3))
        if self.chance(0.05):
            found[self.draw.integers(len(found)), self.draw.integers(3)] = self.draw.choice(OUTSIDE)
        if self.chance(0.3):
            found = np.round(found, 1) + self.draw.choice([0, 5e-10, 1.5e-9])
        return found.astype(np.float32).astype(float) if self.chance(0.3) else found

    def box(self):
        corners = np.sort(self.draw.normal(0, 3, (2, 3)), axis=0)
        return corners[::-1] if self.chance(0.05) else corners

    def do_map(self):
        resolution, settings = self.settings()
        self.rows.append(["open", [resolution, settings], None])
        with octofix.Map(resolution, **settings) as self.world:
            if self.chance(0.5):
                self.ask("track", [], self.world.track)
            for _ in range(int(self.draw.integers(1, 6))):
                edits = [self.scan, self.scan_from, self.edit, self.edit_box, self.keep_box]
                self.draw.choice([*edits, self.limit])()
            self.ask_points()
            self.ask_lists()
            self.ask_whole()
            self.ask_files()
            self.merge(resolution, settings)

    def settings(self):
        settings = {}
        if self.chance(0.5):
            low, high, hit, miss = (int(it) for it in self.draw.integers(1, 4000, 4))
            settings = {"hit": hit, "miss": -miss, "min": -low, "max": high, "threshold": 0}
        if self.chance(0.1):
            settings["max_groups"] = int(self.draw.integers(16, 5000))
        return float(self.draw.choice(RESOLUTIONS)), settings

    def reach(self):
        return float(self.draw.uniform(0, 8)) if self.chance(0.5) else None

    def scan(self):
        points, origin = self.points(200), self.draw.normal(0, 1, 3)
        turn = self.draw.normal(0, 1, 4) if self.chance(0.7) else np.array([1.0, 0, 0, 0])
        turn = turn * (not self.chance(0.03))
        own = {"hit": 500, "miss": -int(self.draw.integers(0, 2000))} if self.chance(0.2) else {}
        how = {"range": self.reach(), "lazy": self.chance(0.3), **own}
        passed = [self.keep(it) for it in (points, origin, turn)]
        self.ask("scan", [*passed, how], lambda: [*self.world.scan(points, origin, turn, **how)])

    def scan_from(self):
        points, origin = self.points(200), self.draw.normal(0, 1, 3)
        how = {"range": self.reach(), "lazy": self.chance(0.3)}
        passed = [self.keep(origin), self.keep(points), how]
        self.ask("scanFrom", passed, lambda: [*self.world.scan_from(origin, points, **how)])

    def edit(self):
        points, lazy = self.points(200), self.chance(0.3)
        if self.chance(0.5):
            event, number = int(self.draw.integers(5)), int(self.draw.integers(-3000, 3000))
        else:
            event = self.draw.integers(4, size=len(points)).tolist()
            number = self.draw.integers(-3000, 3000, len(points)).tolist()
            if self.chance(0.1):
                number[-1] = 2_000_000
        passed = [self.keep(points), event, number, lazy]
        self.ask("edit", passed, lambda: self.world.edit(points, event, number, lazy=lazy))

    def edit_box(self):
        low, high = self.box()
        event, number = int(self.draw.integers(4)), int(self.draw.integers(-3000, 3000))
        passed = [self.keep(low), self.keep(high), event, number]
        self.ask("editBox", passed, lambda: self.world.edit_box(low, high, event, number))

    def keep_box(self):
        low, high = self.box()
        self.ask("keepBox", [self.keep(low), self.keep(high)], lambda: self.world.keep(low, high))

    def limit(self):
        low, high = self.box()
        self.ask("limit", [self.keep(low), self.keep(high)], lambda: self.world.limit(low, high))
        self.ask("window", [], lambda: boxed(self.world.window))

    def ask_points(self):
        world = self.world
        for depth in (16, 12, 17):
            where = self.points(200)
            passed = [self.keep(where), depth]
            self.ask("get", passed, lambda at=where, by=depth: sum_of(world.get(at, by)))
            self.ask("classes", passed, lambda at=where, by=depth: sum_of(world.classes(at, by)))
        self.ask("refresh", [], world.refresh)
        ends, ignore = self.points(100), self.chance(0.5)
        starts = self.draw.normal(0, 2, (1 if self.chance(0.3) else len(ends), 3))
        passed = [self.keep(starts), self.keep(ends), ignore]
        self.ask("cast", passed, lambda: sum_of(*world.cast(starts, ends, ignore)))
        start, end = self.draw.normal(0, 3, (2, 3))
        passed = [world.resolution, self.keep(start), self.keep(end)]
        self.ask("ray", passed, lambda: sum_of(octofix.ray(world.resolution, start, end)))

    def ask_lists(self):
        world, (low, high) = self.world, self.box()
        corners = [self.keep(low), self.keep(high)]
        for kind in KINDS:
            self.ask("leaves", [kind], lambda by=kind: listed(world.leaves(kind=by)))
            passed = [kind, *corners]
            self.ask("leavesIn", passed, lambda by=kind: listed(world.leaves(low, high, by)))
            self.ask("voxels", [kind], lambda by=kind: sum_of(world.voxels(by)))
            self.ask("bounds", [kind], lambda by=kind: boxed(world.bounds(by)))
        self.ask("list", [*corners, 13], lambda: listed(world.list(low, high, 13)))
        self.ask("grid", corners, lambda: gridded(world.grid(low, high)))

    def ask_whole(self):
        world = self.world
        self.ask("changes", [], lambda: sum_of(*world.changes()))
        self.ask("leastTree", [], lambda: [*world.least_tree()])
        self.ask("counts", [], lambda: [*world.counts()])
        self.ask("odds", [], lambda: [*world.odds])
        self.ask("memory", [], lambda: world.memory)

    def ask_files(self):
        world = self.world
        self.ask("toBt", [], lambda: sum_of(world.to_bt()))
        self.ask("toSnapshot", [], lambda: sum_of(world.to_snapshot()))
        again = octofix.Map.from_bt(world.to_bt())
        self.ask("reopen", ["toBt"], lambda: sum_of(again.to_snapshot()))
        again = octofix.Map.from_snapshot(world.to_snapshot())
        self.ask("reopen", ["toSnapshot"], lambda: sum_of(again.to_bt()))
        cut = int(self.draw.integers(len(world.to_bt())))
        self.ask("cut", [cut], lambda: world.load_bt(world.to_bt()[:cut]))

    def merge(self, resolution, settings):
        other = octofix.Map(resolution, **settings)
        points, rule = self.draw.normal(0, 3, (50, 3)), int(self.draw.integers(4))
        shift = self.draw.integers(-40, 40, 3).tolist() if self.chance(0.5) else [0, 0, 0]
        if self.chance(0.1):
            shift[self.draw.integers(3)] = int(self.draw.choice([-(2**15), 2**15, 2**31]))

        def merged():
            other.scan_from((0, 0, 0), points)
            self.world.merge(other, rule, shift)
            return sum_of(self.world.to_snapshot())

        self.ask("merge", [resolution, settings, self.keep(points), rule, shift], merged)


def boxed(box):
    return box and [list(it) for it in box]


def listed(blocks):
    places = blocks.lows(), blocks.centers(), blocks.sizes()
    return sum_of(blocks.depth, blocks.index, blocks.value, *places)


def gridded(cells):
    return [*cells.shape, sum_of(cells)]
