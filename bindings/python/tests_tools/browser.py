"""A browser without a display: Chromium, driven by the pipe of its debugger."""

import base64
import contextlib
import fcntl
import io
import json
import os
import select
import shutil
import signal
import tempfile
import time
from pathlib import Path

import numpy as np
from octofix.io.optional import wanted

CHROMIUM = "/usr/bin/chromium"
# (WebGL without a graphics processor)
WORDS = (
    "--headless=new", "--no-sandbox", "--use-gl=angle", "--use-angle=swiftshader",
    "--enable-unsafe-swiftshader", "--disable-background-networking", "--disable-sync",
    "--no-first-run", "--remote-debugging-pipe",
)  # fmt: skip
PATIENCE = 120  # seconds
DOMAINS = "Page", "Runtime", "Log", "DOM", "Network"
GROUP, USER_TIME, SYSTEM_TIME = 2, 11, 12  # fields of /proc/ID/stat, from the one after the name


def missing():
    """What lacks for a browser, with the name of Debian's package; or None."""
    return None if Path(CHROMIUM).exists() else "no browser is driven without chromium"


class Fault(Exception):
    """What the browser answers in place of what was asked."""


class Pipe:
    """Chromium in a folder of its own, and the messages to it and from it."""

    def __init__(self):
        self.folder = tempfile.mkdtemp(prefix="octofix-browser-")
        self.events, self._left, self._number = [], b"", 0
        orders, self._out = _pipe()
        self._in, answers = _pipe()
        actions = [(os.POSIX_SPAWN_DUP2, orders, 3), (os.POSIX_SPAWN_DUP2, answers, 4)]
        for stream in range(3):
            actions.append((os.POSIX_SPAWN_OPEN, stream, os.devnull, os.O_RDWR, 0))
        words = [CHROMIUM, f"--user-data-dir={self.folder}/data", *WORDS, "about:blank"]
        self._pid = os.posix_spawn(
            CHROMIUM, words, {**os.environ, "HOME": self.folder}, file_actions=actions, setpgroup=0
        )
        os.close(orders)
        os.close(answers)

    def command(self, name, session=None, **words):
        self._number += 1
        asked = {"id": self._number, "method": name, "params": words}
        asked.update({"sessionId": session} if session else {})
        os.write(self._out, json.dumps(asked).encode() + b"\0")
        end = time.monotonic() + PATIENCE
        while True:
            came = self._message(end)
            if came.get("id") != self._number:
                self.events.append(came)
            elif "error" in came:
                raise Fault(f"{name}: {came['error']['message']}")
            else:
                return came["result"]

    def _message(self, end):
        while b"\0" not in self._left:
            if not select.select([self._in], [], [], max(end - time.monotonic(), 0))[0]:
                raise Fault(f"no answer within {PATIENCE} s")
            part = os.read(self._in, 1 << 20)
            if not part:
                raise Fault("the browser has ended")
            self._left += part
        message, _, self._left = self._left.partition(b"\0")
        return json.loads(message)

    def processor_time(self):
        found = 0
        for it in Path("/proc").glob("[0-9]*/stat"):
            # (some end meanwhile)
            with contextlib.suppress(OSError):
                fields = it.read_text().rpartition(")")[2].split()
                if int(fields[GROUP]) == self._pid:
                    found += int(fields[USER_TIME]) + int(fields[SYSTEM_TIME])
        return found / os.sysconf("SC_CLK_TCK")

    def close(self):
        with contextlib.suppress(Fault, OSError):
            self.command("Browser.close")
        # (what it has started goes with it)
        with contextlib.suppress(ProcessLookupError):
            os.killpg(self._pid, signal.SIGKILL)
        os.waitpid(self._pid, 0)
        os.close(self._in)
        os.close(self._out)
        shutil.rmtree(self.folder, ignore_errors=True)


def _pipe():
    """Both ends of a pipe, by numbers that leave room for those that the browser takes."""
    ends = os.pipe()
    found = tuple(fcntl.fcntl(it, fcntl.F_DUPFD_CLOEXEC, 10) for it in ends)
    for it in ends:
        os.close(it)
    return found


class Browser:
    """One window. Places are pixels from its upper left corner."""

    def __init__(self, width, height, is_phone=False, is_offline=True):
        self._pipe = Pipe()
        try:
            self._start(width, height, is_phone, is_offline)
        except BaseException:
            self._pipe.close()
            raise

    def _start(self, width, height, is_phone, is_offline):
        self._session = None
        targets = self.command("Target.getTargets")["targetInfos"]
        page = next(it["targetId"] for it in targets if it["type"] == "page")
        found = self.command("Target.attachToTarget", targetId=page, flatten=True)
        self._session = found["sessionId"]
        for it in DOMAINS:
            self.command(f"{it}.enable")
        self.command(
            "Emulation.setDeviceMetricsOverride",
            width=width, height=height, deviceScaleFactor=1, mobile=is_phone,
        )  # fmt: skip
        if is_phone:
            self.command("Emulation.setTouchEmulationEnabled", enabled=True, maxTouchPoints=2)
        if is_offline:
            # (so that nothing comes from anywhere but the page itself)
            self.command(
                "Network.emulateNetworkConditions",
                offline=True, latency=0, downloadThroughput=0, uploadThroughput=0,
            )  # fmt: skip

    def command(self, name, **words):
        return self._pipe.command(name, self._session, **words)

    def close(self):
        self._pipe.close()

    def open(self, address, first="", shown=None):
        """Opens a page, and waits until it shows its map, or says why it doesn't, or `shown`, an
        expression, is true. `first` is a script that runs before those of the page."""
        self.command("Page.navigate", url="about:blank")
        found = self.command("Page.addScriptToEvaluateOnNewDocument", source=first)
        self.command("Page.navigate", url=address)
        is_shown = "window.viewer || document.getElementById('told')?.textContent"
        self.until(f"document.readyState === 'complete' && ({shown or is_shown})")
        self.command("Page.removeScriptToEvaluateOnNewDocument", **found)

    def js(self, text, *arguments):
        """The value of an expression, or what it promises; in it are `arguments`."""
        given = json.dumps(arguments)
        return self._evaluate(f"(function() {{ return {text}\n}}).apply(null, {given})")

    def run(self, text):
        """What a script returns."""
        return self._evaluate(f"(function() {{ {text}\n}})()")

    def _evaluate(self, text):
        how = {"awaitPromise": True, "returnByValue": True, "userGesture": True}
        came = self.command("Runtime.evaluate", expression=text, **how)
        if "exceptionDetails" in came:
            fault = came["exceptionDetails"]
            raise Fault(fault.get("exception", {}).get("description", fault["text"]))
        return came["result"].get("value")

    def until(self, text, seconds=PATIENCE):
        """Waits until an expression is true."""
        end = time.monotonic() + seconds
        while not self.js(f"Boolean({text})"):
            if time.monotonic() > end:
                raise Fault(f"not within {seconds} s: {text}")
            time.sleep(0.02)

    def choose(self, selector, *files):
        """Chooses files in an input for files."""
        root = self.command("DOM.getDocument")["root"]["nodeId"]
        node = self.command("DOM.querySelector", nodeId=root, selector=selector)["nodeId"]
        self.command("DOM.setFileInputFiles", files=[str(it) for it in files], nodeId=node)

    def drop(self, x, y, *files):
        """Drops files at a place."""
        data = {"items": [], "files": [str(it) for it in files], "dragOperationsMask": 1}
        for kind in ("dragEnter", "dragOver", "drop"):
            self.command("Input.dispatchDragEvent", type=kind, x=x, y=y, data=data)

    def settle(self):
        """Waits until all is drawn, finely too."""
        self.js("""new Promise(done =>
            setTimeout(() => requestAnimationFrame(() => requestAnimationFrame(done)), 300))""")

    def pixels(self):
        """What is seen: (rows, columns, 3)."""
        self.settle()
        images = wanted("PIL.Image")
        return np.asarray(images.open(io.BytesIO(self.picture())).convert("RGB"))

    def picture(self):
        """The same as a PNG."""
        return base64.b64decode(self.command("Page.captureScreenshot", format="png")["data"])

    def mouse(self, kind, x, y, **more):
        self.command("Input.dispatchMouseEvent", type=kind, x=x, y=y, **more)

    def click(self, x, y):
        self.drag((x, y), (x, y))

    def drag(self, start, end, button="left"):
        held = {"button": button, "clickCount": 1}
        self.mouse("mousePressed", *start, **held)
        for part in (0.5, 1):
            at = [a + (b - a) * part for a, b in zip(start, end)]
            self.mouse("mouseMoved", *at, button=button, buttons=1 if button == "left" else 2)
        self.mouse("mouseReleased", *end, **held)

    def wheel(self, x, y, by):
        self.mouse("mouseWheel", x, y, deltaX=0, deltaY=by)

    def touch(self, *steps):
        """Fingers go from place to place, and are lifted."""
        kind = "touchStart"
        for places in steps:
            points = [{"x": x, "y": y, "id": at} for at, (x, y) in enumerate(places)]
            self.command("Input.dispatchTouchEvent", type=kind, touchPoints=points)
            kind = "touchMove"
        self.command("Input.dispatchTouchEvent", type="touchEnd", touchPoints=[])

    def key(self, name, code, is_shift=False):
        for kind in ("rawKeyDown", "keyUp"):
            self.command(
                "Input.dispatchKeyEvent", type=kind, key=name, windowsVirtualKeyCode=code,
                modifiers=8 if is_shift else 0,
            )  # fmt: skip

    def processor_time(self):
        """Seconds of processors that all processes of the browser took."""
        return self._pipe.processor_time()

    def faults(self):
        """What the page complained of since the last time that this was asked."""
        self.command("Target.getTargets" if not self._session else "Page.getFrameTree")
        events, self._pipe.events = self._pipe.events, []
        said = [it for event in events for it in _complaint(event)]
        return [it for it in said if "GPU stall" not in it]


def _complaint(event):
    """The text of an event that is a complaint, or none."""
    name, words = event.get("method"), event.get("params", {})
    if name == "Runtime.exceptionThrown":
        fault = words["exceptionDetails"]
        yield fault.get("exception", {}).get("description", fault["text"])
    elif name == "Log.entryAdded":
        yield words["entry"]["text"]
    elif name == "Runtime.consoleAPICalled":
        yield " ".join(str(it.get("value", it.get("description"))) for it in words["args"])
    elif name == "Inspector.targetCrashed":
        yield "the page crashed"
