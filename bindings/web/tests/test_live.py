"""The example of a live map: the page's map has the classes of the one that is made."""

import http.client
import http.server
import os
import sys
import threading
import unittest
from pathlib import Path

import engines
from engines import browser

sys.path.append(str(engines.WEB.parents[1] / "examples/web"))

import server  # noqa: E402

ROUNDS = 12
HEX = """Array.from(follower.map.toBt(), it => it.toString(16).padStart(2, "0")).join("")"""


class Live(unittest.TestCase):
    def serve(self, most=server.MOST_PAGES):
        self.hub, self.stop = server.Hub(), threading.Event()
        handler = server.handler_of(self.hub, Path(os.environ["OCTOFIX_WASM"]), most)
        here = http.server.ThreadingHTTPServer(("127.0.0.1", 0), handler)
        here.daemon_threads = True
        self.addCleanup(here.server_close)
        self.addCleanup(here.shutdown)
        threading.Thread(target=here.serve_forever, args=(0.05,), daemon=True).start()
        return here.server_port

    @unittest.skipIf(browser.missing(), browser.missing())
    def test_both_have_the_same_classes(self):
        port = self.serve()
        window = browser.Browser(600, 500, is_offline=False)
        self.addCleanup(window.close)
        window.open(f"http://127.0.0.1:{port}/", shown="window.followed")
        self.hub.run(ROUNDS, self.stop)
        window.js("followed.then(() => true)")
        self.assertEqual(bytes.fromhex(window.js(HEX)), self.hub.mapper.world.to_bt())
        self.assertGreater(len(self.hub.mapper.world.voxels("occupied")), 1000)
        self.assertIn("no more come", window.js("document.getElementById('told').textContent"))
        self.assertEqual(window.faults(), [])

    def test_what_else_is_asked(self):
        """No file but those of the example is given, and no more pages are served than fit."""
        port = self.serve(most=1)
        self.assertEqual(self.status(port, "/../server.py"), 404)
        self.assertEqual(self.status(port, "/etc/passwd"), 404)
        first = http.client.HTTPConnection("127.0.0.1", port, timeout=20)
        first.request("GET", "/changes")
        self.assertEqual(first.getresponse().status, 200)
        self.assertEqual(self.status(port, "/changes"), 503)
        self.hub.run(1, self.stop)
        first.close()

    def status(self, port, path):
        asked = http.client.HTTPConnection("127.0.0.1", port, timeout=20)
        asked.request("GET", path)
        status = asked.getresponse().status
        asked.close()
        return status


if __name__ == "__main__":
    unittest.main()
