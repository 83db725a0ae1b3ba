"""Files of the OctoMap library's own values, .ot, which another program reads for the tools."""

import os
from pathlib import Path
from unittest import mock

from running import InFolder

from octofix import Map

OT = b"# Octomap OcTree file\nid OcTree\nsize 0\nres 0.5\ndata\n"


class OtFiles(InFolder):
    def setUp(self):
        super().setUp()
        Path("bin").mkdir()
        Path("map.ot").write_bytes(OT)
        path = mock.patch.dict(os.environ, {"PATH": f"{Path('bin').resolve()}:/usr/bin:/bin"})
        path.start()
        self.addCleanup(path.stop)

    def put_reader(self, script):
        """A program octofix-ot that is this script of sh."""
        reader = Path("bin/octofix-ot")
        reader.write_text(f"#!/bin/sh\n{script}\n")
        reader.chmod(0o755)

    def test_they_are_read(self):
        with Map(0.5) as world:
            world.set([[0.1, 0.1, 0.1]], 850)
            world.snapshot("map.snap")
        self.put_reader("cmp -s - map.ot && cat map.snap")
        said = self.done("info", "map.ot").output
        self.assertEqual(said, self.done("info", "map.snap").output)

    def test_without_the_program(self):
        self.refused(
            "map.ot: it is a .ot file, and octofix-ot, which reads these, isn't on the path: build "
            "it from share/octofix/octofix_ot.cpp with Debian's g++ and liboctomap-dev",
            "info",
            "map.ot",
        )

    def test_one_that_it_refuses(self):
        self.put_reader("cat >all; echo 'octofix-ot: refused 17 Truncated at 57' >&2; exit 1")
        self.refused("map.ot: octofix-ot: refused 17 Truncated at 57", "info", "map.ot")
        self.assertEqual(Path("all").read_bytes(), OT)
