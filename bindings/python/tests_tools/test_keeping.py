"""What a fault leaves of a map that was made until then."""

import os
import shutil
import stat
import tempfile
import unittest
from unittest import mock

from running import OLD_MAP, InFolder

from octofix import Map
from octofix.mapping import mapper


def content_of(name):
    with open(name, "rb") as file:
        return file.read()


class Kept(InFolder):
    """Clouds a.xyz and b.xyz, which are good, and maps of one and of both."""

    def setUp(self):
        super().setUp()
        for name, content in (("a.xyz", "2 0 0\n"), ("b.xyz", "0 3 1\n"), ("bad.xyz", "1 2 six\n")):
            with open(name, "w") as file:
                file.write(content)
        for name, clouds in (("one", ["a.xyz"]), ("two", ["a.xyz", "b.xyz"])):
            files = "-o", f"{name}.bt", "--snapshot", f"{name}.snap", "--script", f"{name}.txt"
            self.done("map", "--res", 0.1, *clouds, *files)
        os.mkdir("out")

    def map(self, *words, status=1):
        return self.done("map", "--res", 0.1, "--quiet", *words, status=status).said

    def expect(self, name, wanted):
        for ending in ("bt", "snap", "txt"):
            kept = content_of(f"{name}.{ending}.partial")
            self.assertEqual(kept, content_of(f"{wanted}.{ending}"))

    def test_a_bad_last_cloud(self):
        """All three files are kept, and the old map stands."""
        with open("out/m.bt", "wb") as file:
            file.write(OLD_MAP)
        files = "-o", "out/m.bt", "--snapshot", "out/m.snap", "--script", "out/m.txt"
        for jobs in (1, 3):
            said = self.map("a.xyz", "b.xyz", "bad.xyz", *files, "--jobs", jobs)
            names = "out/m.bt.partial and out/m.snap.partial and out/m.txt.partial"
            self.assertEqual(said, "octofix: bad.xyz:1:5: 'six' is no number; the map so far, of "
                             f"2 scans, is in {names}\n")  # fmt: skip
            self.expect("out/m", "two")
            self.assertEqual(content_of("out/m.bt"), OLD_MAP)
            for it in ("bt", "snap", "txt"):
                os.unlink(f"out/m.{it}.partial")

    def test_who_wants_none(self):
        self.map("a.xyz", "bad.xyz", "-o", "out/m.bt", "--on-error", "stop")
        said = self.map("bad.xyz", "a.xyz", "-o", "out/m.bt")
        self.assertEqual(said, "octofix: bad.xyz:1:5: 'six' is no number\n")
        self.map("a.xyz", "bad.xyz", "--region", "1/2", "--snapshot", "out/m.snap")
        self.assertEqual(os.listdir("out"), [])

    def test_a_map_that_is_full(self):
        with open("far.xyz", "w") as file:
            file.write("-50 -50 -50\n")
        said = self.map("a.xyz", "far.xyz", "-o", "m.bt", "--max-groups", 64)
        self.assertIn("far.xyz: the map is full (", said)
        self.assertIn("; the map so far, of 1 scans, is in m.bt.partial\n", said)
        self.assertEqual(content_of("m.bt.partial"), content_of("one.bt"))

    def test_poses_that_lack(self):
        """That is seen behind the last cloud of a scan log."""
        with open("a.log", "w") as file:
            file.write("NODE 0 0 0 0 0 0\n2 0 0\nNODE 0 0 0 0 0 0\n0 3 1\n")
        with open("poses.tum", "w") as file:
            file.write("".join(f"{time} 0 0 0 0 0 0 1\n" for time in range(3)))
        said = self.map("a.log", "--poses", "poses.tum", "-o", "m.bt")
        self.assertIn("; the map so far, of 2 scans, is in m.bt.partial\n", said)
        self.assertEqual(content_of("m.bt.partial"), content_of("two.bt"))

    def map_meanwhile(self, act, *words):
        """Makes a map; the act is done during the first scan."""
        scan, acts = mapper.do_scan, [act]

        def do_scan(*words):
            if acts:
                acts.pop()()
            scan(*words)

        with mock.patch.object(mapper, "do_scan", do_scan):
            return self.map("a.xyz", "b.xyz", *words)

    def test_a_folder_that_goes(self):
        """It is made anew."""
        files = "-o", "out/m.bt", "--snapshot", "out/m.snap", "--script", "out/m.txt"
        said = self.map_meanwhile(lambda: shutil.rmtree("out"), *files)
        self.assertRegex(said, "^octofix: out/m.bt: No such file or directory; the map so far, of")
        self.assertEqual(len(said.splitlines()), 1)
        self.expect("out/m", "two")
        self.assertEqual(len(os.listdir("out")), 3)

    def test_a_folder_that_becomes_a_file(self):
        """What is kept goes to the current folder."""
        def act():
            os.rmdir("out")
            shutil.copy("a.xyz", "out")

        said = self.map_meanwhile(act, "-o", "out/m.bt")
        self.assertIn("the map so far, of 2 scans, is in m.bt.partial\n", said)
        self.assertEqual(content_of("m.bt.partial"), content_of("two.bt"))
        self.assertEqual(content_of("out"), content_of("a.xyz"))

    def test_a_name_that_is_taken(self):
        """By a file of another kind, which stays; what is kept goes among temporary files."""
        with open("m.bt.partial", "w") as file:
            file.write("mine")
        with tempfile.TemporaryDirectory() as folder, mock.patch("tempfile.tempdir", folder):
            said = self.map("a.xyz", "bad.xyz", "-o", "m.bt")
            self.assertIn(f", is in {folder}/m.bt.partial\n", said)
            self.assertEqual(content_of(f"{folder}/m.bt.partial"), content_of("one.bt"))
        self.assertEqual(content_of("m.bt.partial"), b"mine")

    def test_a_script_that_has_no_room(self):
        """Of a script that is cut in a scan the whole ones are kept, beside the map."""
        with open("many.xyz", "w") as file:
            file.write("2 0 0\n" * 9)
        scans, limit = [], 3
        write = mapper.ScanMapper._add_at_once

        def add(own, scan):
            scans.append(scan)
            if len(scans) == limit:
                own.script.file.write(b"scan 0 0 0 1 0 0 0 all\np 2")
                raise OSError(28, "No space left on device", "out/m.txt")
            return write(own, scan)

        with mock.patch.object(mapper.ScanMapper, "_add_at_once", add):
            files = "-o", "out/m.bt", "--script", "out/m.txt"
            said = self.map("a.xyz", "b.xyz", "many.xyz", *files)
        self.assertIn("out/m.txt: No space left on device; the map so far, of 2 scans, is in", said)
        self.assertEqual(content_of("out/m.txt.partial"), content_of("two.txt"))
        self.assertEqual(content_of("out/m.bt.partial"), content_of("two.bt"))

    def test_memory_that_runs_out_in_parts(self):
        """A scan that is done by edits, of which some are done when memory runs out, is undone."""
        edit = Map.edit

        def fail(world, points, *words):
            edit(world, points[:1], words[0], words[1][:1])
            raise MemoryError

        with mock.patch.object(mapper, "MOST_POINTS", 1), mock.patch.object(Map, "edit", fail):
            with open("c.xyz", "w") as file:
                file.write("5 0 0\n0 5 0\n")
            said = self.map("a.xyz", "c.xyz", "-o", "m.bt")
        self.assertEqual(said, "octofix: memory ran out; the map so far, of 1 scans, is in "
                         "m.bt.partial\n")  # fmt: skip
        self.assertEqual(content_of("m.bt.partial"), content_of("one.bt"))

    def test_devices_have_none(self):
        said = self.map("a.xyz", "bad.xyz", "-o", "/dev/null", "--snapshot", "-")
        self.assertEqual(said, "octofix: bad.xyz:1:5: 'six' is no number\n")
        self.assertTrue(stat.S_ISCHR(os.stat("/dev/null").st_mode))
        self.assertFalse(os.path.exists("/dev/null.partial"))


if __name__ == "__main__":
    unittest.main()
