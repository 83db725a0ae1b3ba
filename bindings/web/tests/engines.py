"""What runs JavaScript here: Node from 20 on, and Chromium, which gets files from a server of this
machine."""

import contextlib
import functools
import http.server
import json
import os
import shutil
import subprocess
import sys
import tempfile
import threading
import time
from pathlib import Path

WEB = Path(__file__).resolve().parents[1]
sys.path.append(str(WEB.parent / "python/tests_tools"))

import browser  # noqa: E402

NODE = "node"
FLAG = "--experimental-wasm-memory64"
LEAST_NODE = 20
# Node that takes no processor time for so many seconds waits for itself for ever.
IDLE = 60
STARTS = 3
# What a module's function answers, of where files are (`at`) and more words.
ASK = "import({module}).then(it => it.{function}({at}, ...{words}))"


def node():
    """The words that start Node with 64-bit memories; None without one that is new enough."""
    found = shutil.which(NODE)
    if not found:
        return None
    version = _said(found, "--version").lstrip("v")
    if int(version.partition(".")[0] or 0) < LEAST_NODE:
        return None
    # (a newer one has them without the flag, and may not know it any more)
    knows = subprocess.run([found, FLAG, "-e", "0"], capture_output=True).returncode == 0
    return [found, FLAG] if knows else [found]


def _said(*words):
    return subprocess.run(words, capture_output=True, text=True).stdout.strip()


def run_started(words, idle=None):
    """Runs Node, and once more where it waits for itself: Node 20 was seen to do that as it began,
    once in some ten starts."""
    for _ in range(STARTS):
        ran = _run_unless_idle(words, IDLE if idle is None else idle)
        if ran is not None:
            return ran
    raise AssertionError(f"{words[0]} waited for itself in each of {STARTS} starts")


def _run_unless_idle(words, idle):
    """What a process came to; None where it was ended since it took no processor time for long."""
    with tempfile.TemporaryFile("w+") as out, tempfile.TemporaryFile("w+") as said:
        with subprocess.Popen(words, stdout=out, stderr=said) as process:
            took, since = None, time.monotonic()
            while process.poll() is None:
                now = _ticks_of(process.pid)
                if now != took:
                    took, since = now, time.monotonic()
                elif time.monotonic() - since > idle:
                    process.kill()
                    return None
                time.sleep(0.02)
        texts = [(it.seek(0), it.read())[1] for it in (out, said)]
    return subprocess.CompletedProcess(words, process.returncode, *texts)


def _ticks_of(process):
    fields = Path(f"/proc/{process}/stat").read_text().rpartition(")")[2].split()
    return int(fields[11]) + int(fields[12])


class InNode:
    """Calls of functions of modules, in Node."""

    def __init__(self, folder):
        self.at = f"{Path(folder).as_uri()}/"

    def ask(self, module, function, *words):
        asked = ASK.format(
            module=json.dumps((WEB / module).as_uri()), function=function, at=json.dumps(self.at),
            words=json.dumps(words),
        )  # fmt: skip
        text = f"{asked}.then(it => console.log(JSON.stringify(it ?? null)))"
        ran = run_started([*node(), "--expose-gc", "-e", text])
        if ran.returncode:
            raise AssertionError(ran.stderr)
        return json.loads(ran.stdout.splitlines()[-1])

    def close(self):
        pass


class InChromium:
    """The same in a window of Chromium."""

    def __init__(self, folder):
        self._stack = contextlib.ExitStack()
        self.origin = self._stack.enter_context(served(folder))
        self.window = browser.Browser(400, 300, is_offline=False)
        self._stack.callback(self.window.close)
        self.at = f"{self.origin}/here/"
        self.window.open(f"{self.origin}/here/", shown="true")

    def ask(self, module, function, *words):
        asked = ASK.format(
            module=json.dumps(f"{self.origin}/{module}"), function=function,
            at=json.dumps(self.at), words=json.dumps(words),
        )  # fmt: skip
        return self.window.js(asked)

    def close(self):
        self._stack.close()


def engines():
    """Each engine that is here, by its name."""
    found = {"node": InNode} if node() else {}
    return found | ({} if browser.missing() else {"chromium": InChromium})


@contextlib.contextmanager
def served(folder):
    """Serves the modules, and a folder as `here`, on this machine alone, and answers where."""

    class Handler(http.server.SimpleHTTPRequestHandler):
        extensions_map = {
            **http.server.SimpleHTTPRequestHandler.extensions_map,
            ".mjs": "text/javascript", ".js": "text/javascript", ".wasm": "application/wasm",
        }  # fmt: skip

        def translate_path(self, path):
            name = path.partition("?")[0].lstrip("/")
            place, _, rest = name.partition("/")
            return os.path.join(folder, rest) if place == "here" else str(WEB / name)

        def log_message(self, *_):
            pass

    server = http.server.ThreadingHTTPServer(("127.0.0.1", 0), Handler)
    thread = threading.Thread(target=functools.partial(server.serve_forever, 0.05))
    thread.start()
    try:
        yield f"http://127.0.0.1:{server.server_port}"
    finally:
        server.shutdown()
        thread.join()
        server.server_close()
