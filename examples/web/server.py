#!/usr/bin/env python3
"""Shows a map that is being made: a page of this machine gets what changes, and has the same map.

    examples/web/server.py MODULE.wasm [--port 8000] [--rounds 200]

MODULE is octofix.wasm (share/octofix/web). A robot is made up that drives through a hall; a mapper
(octofix.mapping.live) maps its clouds, and each page at http://127.0.0.1:8000/ is sent the voxels
whose class has changed, by server-sent events. Nobody but this machine is answered.
"""

import argparse
import http.server
import threading
from base64 import b64encode
from pathlib import Path

import numpy as np

import octofix
from octofix.mapping import live

HERE = Path(__file__).resolve().parent
WEB = HERE.parents[1] / "bindings/web"
RESOLUTION, MOST_PAGES, PAUSE = 0.1, 8, 0.2
FILES = {"/": HERE / "live.html", "/live.mjs": HERE / "live.mjs"}
TYPES = {".html": "text/html", ".mjs": "text/javascript", ".wasm": "application/wasm"}


def clouds(rounds):
    """Poses in a hall of 8 x 6 m with a pillar, and what a scanner sees there of its walls."""
    around = np.linspace(0, 2 * np.pi, 181)[:-1]
    ways = np.stack([np.cos(around), np.sin(around)], axis=1)
    for turn in range(rounds):
        place = np.array([2 * np.cos(turn / 20), 1.5 * np.sin(turn / 20)])
        with np.errstate(divide="ignore"):
            walls = np.where(ways > 0, np.array([4, 3]) - place, place + [4, 3]) / np.abs(ways)
        ends = ways * walls.min(axis=1, keepdims=True)
        heights = np.linspace(-0.4, 1.6, 9)
        yield place, np.concatenate([np.insert(ends, 2, it, axis=1) for it in heights])


class Hub:
    """The changes since the start, round by round, for pages that come at any time."""

    def __init__(self):
        self.mapper = live.Mapper(octofix.Map(RESOLUTION), is_tracked=True)
        self.rounds, self.is_done, self.changed = [], False, threading.Condition()

    def run(self, rounds, stop):
        """Maps clouds until there are no more, or it is stopped."""
        for time, (place, points) in enumerate(clouds(rounds)):
            self.mapper.add_pose(time, (*place, 0.5))
            self.mapper.add_cloud(time, points)
            self.add(change_set(self.mapper))
            if stop.wait(PAUSE):
                break
        with self.changed:
            self.is_done = True
            self.changed.notify_all()

    def add(self, changes):
        with self.changed:
            self.rounds.append(changes)
            self.changed.notify_all()

    def after(self, count):
        """The rounds after so many; none where there will be no more."""
        with self.changed:
            self.changed.wait_for(lambda: self.is_done or len(self.rounds) > count)
            return self.rounds[count:]


def change_set(mapper):
    """The voxels whose class has changed: eight bytes each, their key and their class."""
    keys = mapper.changes().keys
    classes = mapper.world.classes(mapper.world.centers(keys)) if len(keys) else np.empty(0)
    rows = np.column_stack([keys, classes]).astype("<u2")
    return b64encode(rows.tobytes()).decode()


def handler_of(hub, module, most=MOST_PAGES):
    room = threading.BoundedSemaphore(most)

    class Handler(http.server.BaseHTTPRequestHandler):
        def do_GET(self):
            if self.path == "/changes":
                self.send_changes()
            else:
                self.send_file()

        def send_file(self):
            name = self.path.lstrip("/")
            file = module if name == "octofix.wasm" else FILES.get(self.path)
            if not file and name in {it.name for it in WEB.glob("octofix*.mjs")}:
                file = WEB / name
            if not file:
                return self.send_error(404)
            content = file.read_bytes()
            self.send_response(200)
            self.send_header("Content-Type", TYPES[file.suffix])
            self.send_header("Content-Length", str(len(content)))
            self.end_headers()
            self.wfile.write(content)

        def send_changes(self):
            """All rounds from the first on, for as long as there are more."""
            if not room.acquire(blocking=False):
                return self.send_error(503, "enough pages look at the map")
            try:
                self.send_response(200)
                self.send_header("Content-Type", "text/event-stream")
                self.end_headers()
                count = 0
                while rounds := hub.after(count):
                    for it in rounds:
                        self.wfile.write(f"data: {it}\n\n".encode())
                    self.wfile.flush()
                    count += len(rounds)
                self.wfile.write(b"event: end\ndata: \n\n")
            except (BrokenPipeError, ConnectionResetError):
                pass  # (the page was closed)
            finally:
                room.release()

        def log_message(self, *_):
            pass

    return Handler


def main():
    parser = argparse.ArgumentParser(description=__doc__.split("\n")[0])
    parser.add_argument("module", type=Path)
    parser.add_argument("--port", type=int, default=8000)
    parser.add_argument("--rounds", type=int, default=200)
    options = parser.parse_args()
    hub, stop = Hub(), threading.Event()
    address = "127.0.0.1", options.port
    with http.server.ThreadingHTTPServer(address, handler_of(hub, options.module)) as server:
        server.daemon_threads = True
        print(f"http://127.0.0.1:{server.server_port}/ (Ctrl-C ends it)", flush=True)
        maker = threading.Thread(target=hub.run, args=(options.rounds, stop))
        maker.start()
        try:
            server.serve_forever(0.1)
        except KeyboardInterrupt:
            pass
        finally:
            stop.set()
            maker.join()


if __name__ == "__main__":
    main()
