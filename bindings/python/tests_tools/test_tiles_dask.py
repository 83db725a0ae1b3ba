"""Tiles by the workers of a scheduler of Dask, on this machine."""

import contextlib
import importlib.util
import os
import signal
import socket
import subprocess
import sys
import time
import unittest

from driving import content_of, save_drive
from running import InFolder

from octofix import tiles

# A scheduler at a port, and two workers, of which each is a process that has a nanny; it says the
# numbers of the workers' processes. (Dask warns, as by -W error it may not.)
CLUSTER = """
import os, sys
if __name__ == "__main__":
    from distributed import Client, LocalCluster
    with LocalCluster(n_workers=2, threads_per_worker=1, scheduler_port=int(sys.argv[1]),
                      host="127.0.0.1", dashboard_address=None) as cluster:
        with Client(cluster) as client:
            print(*client.run(os.getpid).values(), flush=True)
        sys.stdin.read()
"""
# The steps wait while there is a file of this name, but for the workers that it names.
SITE = """
import os, time
if os.path.exists("hold"):
    from octofix.mapping.tiles import steps
    real = steps.build
    def build(folder, run, name):
        open(f"held-{os.getpid()}", "w").close()
        while os.path.exists("hold"):
            time.sleep(0.02)
        return real(folder, run, name)
    build.__module__, build.__qualname__ = real.__module__, real.__qualname__
    steps.build = build
"""
COMMAND = """
from octofix.mapping.tiles import engines
from octofix._program import run
engines.PATIENCE, engines.TIMES, engines.COME, engines.RETURN = 1.0, 0, 5.0, 60.0
run()
"""


@unittest.skipUnless(importlib.util.find_spec("distributed"), "Dask isn't there")
class Workers(InFolder):
    def setUp(self):
        super().setUp()
        self.words = save_drive(4)
        with socket.socket() as free:
            free.bind(("127.0.0.1", 0))
            self.port = free.getsockname()[1]
        for name, text in (("cluster.py", CLUSTER), ("sitecustomize.py", SITE)):
            with open(name, "w") as file:
                file.write(text)
        with open("hold", "w"):
            pass
        path = os.pathsep.join([os.getcwd(), *filter(None, [os.environ.get("PYTHONPATH")])])
        self.environment = {**os.environ, "PYTHONPATH": path}

    def start(self, *words):
        pipes = dict.fromkeys(("stdin", "stdout", "stderr"), subprocess.PIPE)
        how = {"env": self.environment, "text": True, "start_new_session": True, **pipes}
        process = subprocess.Popen([sys.executable, *map(str, words)], **how)
        self.addCleanup(process.communicate)
        self.addCleanup(self.end, process)
        return process

    def end(self, process):
        """Ends a process and all that it has begun, at once."""
        with contextlib.suppress(ProcessLookupError):
            os.killpg(process.pid, signal.SIGKILL)

    def cluster(self):
        """A new one, and the processes of its workers."""
        process = self.start("cluster.py", self.port)
        return process, [int(it) for it in process.stdout.readline().split()]

    def build(self, address=None):
        address = address or f"tcp://127.0.0.1:{self.port}"
        words = ["tiles", "build", "town", "--res", "0.1", "--edge", "6.4"]
        # (the client itself holds nothing)
        environment = self.environment
        self.environment = dict(os.environ)
        process = self.start("-c", COMMAND, *words, "--scheduler", address, *self.words)
        self.environment = environment
        return process

    def held(self, pids):
        """Waits until one of the workers holds a step, and answers which."""
        for _ in range(3000):
            for it in pids:
                if os.path.exists(f"held-{it}"):
                    return it
            time.sleep(0.02)
        self.fail("no step is done")

    def as_one_process(self, process):
        said = process.communicate(timeout=120)[1]
        self.assertEqual(process.returncode, 0, said)
        self.done("map", "--res", "0.1", *self.words, "--snapshot", "one.snap")
        self.assertEqual([tiles.Tiles("town").to_map().map.to_snapshot()], content_of("one.snap"))
        return said

    def test_a_worker_that_is_killed(self):
        _, pids = self.cluster()
        process = self.build()
        os.kill(self.held(pids), signal.SIGKILL)
        os.unlink("hold")
        self.as_one_process(process)

    def test_a_worker_that_hangs(self):
        """Its work is given to the other one, too, and what it does later changes nothing."""
        _, pids = self.cluster()
        process = self.build()
        slow = self.held(pids)
        os.kill(slow, signal.SIGSTOP)
        os.unlink("hold")
        self.as_one_process(process)
        os.kill(slow, signal.SIGCONT)
        time.sleep(0.5)
        self.assertEqual(tiles.Tiles("town").check(), [])

    def test_a_scheduler_that_comes_back(self):
        first, pids = self.cluster()
        process = self.build()
        self.held(pids)
        self.end(first)
        os.unlink("hold")
        self.cluster()
        said = self.as_one_process(process)
        gone = f"octofix: the scheduler tcp://127.0.0.1:{self.port} is gone, and waited for"
        self.assertEqual(said.split("\n")[0], gone)

    def test_no_scheduler(self):
        process = self.build()
        said = f"octofix: there is no scheduler at tcp://127.0.0.1:{self.port}\n"
        self.assertEqual((process.communicate()[1], process.returncode), (said, 1))
        process = self.build("head")
        said = "octofix: 'head' is no address of a scheduler, as tcp://head:8786\n"
        self.assertEqual((process.communicate()[1], process.returncode), (said, 1))
        self.assertFalse(os.path.exists("town"))


if __name__ == "__main__":
    unittest.main()
