"""Files that are written: where they go, what stays as it was, and what would be lost."""

import errno
import io
import os
import stat
import subprocess
import sys
import threading
from unittest import mock

import numpy as np
from running import FRONTS, OLD_MAP, InFolder, files_of_at_most, old, save_map

from octofix import Map, _files
from octofix._program import main
from octofix.cli.yamltext import text_of
from octofix.mapping import mapper

try:
    import yaml
except ImportError:
    yaml = None

CLOUD = b"2 0 0\n"
BOX = "--box", 0, 0, 0, 1, 1, 1


def content_of(name):
    with open(name, "rb") as file:
        return file.read()


def put_file(name, content=None):
    """Writes a file, or else an old one of the kind that its name says."""
    with open(name, "wb") as file:
        file.write(old(name) if content is None else content)


class Maps(InFolder):
    """A map of one beam, which is in wanted.bt, too."""

    def setUp(self):
        super().setUp()
        put_file("a.xyz", CLOUD)
        self.map("-o", "wanted.bt")
        self.wanted = content_of("wanted.bt")

    def map(self, *words, status=0):
        return self.done("map", "--res", "0.1", "--quiet", "a.xyz", *words, status=status)

    def fails(self, said, *words):
        before = sorted(os.listdir())
        self.refused(said, "map", "--res", "0.1", "--quiet", "a.xyz", *words)
        self.assertEqual(sorted(os.listdir()), before)


class Written(Maps):
    def test_a_device_stays_one(self):
        self.fails("/dev/full: No space left on device", "-o", "/dev/full")
        self.assertTrue(stat.S_ISCHR(os.stat("/dev/full").st_mode))
        self.map("-o", "/dev/null", "--snapshot", "/dev/null")
        self.assertTrue(stat.S_ISCHR(os.stat("/dev/null").st_mode))

    def test_a_pipe_is_written_to(self):
        os.mkfifo("pipe")
        came = []
        reader = threading.Thread(target=lambda: came.append(content_of("pipe")))
        reader.start()
        self.map("-o", "pipe")
        reader.join()
        self.assertEqual(came, [self.wanted])
        self.assertTrue(stat.S_ISFIFO(os.stat("pipe").st_mode))

    def test_links_are_followed(self):
        os.mkdir("other")
        put_file("other/stands.bt")
        for name, target in (("to.bt", "other/stands.bt"), ("dangling.bt", "other/new.bt")):
            os.symlink(target, name)
            self.map("-o", name)
            self.assertEqual((os.readlink(name), content_of(target)), (target, self.wanted))
        self.assertEqual(sorted(os.listdir("other")), ["new.bt", "stands.bt"])
        os.symlink("loop.bt", "loop.bt")
        self.fails("loop.bt: Too many levels of symbolic links", "-o", "loop.bt")

    def test_the_mode_stays(self):
        put_file("a.bt")
        os.chmod("a.bt", 0o600)
        self.addCleanup(os.umask, os.umask(0o027))
        self.map("-o", "a.bt", "--snapshot", "new")
        self.assertEqual(content_of("a.bt"), self.wanted)
        modes = [stat.S_IMODE(os.stat(it).st_mode) for it in ("a.bt", "new")]
        self.assertEqual(modes, [0o600, 0o640])

    def test_the_owner_stays(self):
        if os.geteuid():
            self.skipTest("only root sets owners")
        put_file("a.bt")
        os.chown("a.bt", 12345, 54321)
        self.map("-o", "a.bt")
        owned = os.stat("a.bt")
        self.assertEqual((owned.st_uid, owned.st_gid), (12345, 54321))

    def test_a_file_that_may_not_be_written_to(self):
        put_file("a.bt")
        with mock.patch("os.access", return_value=False):
            self.fails("a.bt: Permission denied", "-o", "a.bt")
        self.assertEqual(content_of("a.bt"), OLD_MAP)

    def test_a_longest_name(self):
        name = "m" * 252 + ".bt"
        self.map("-o", name)
        self.assertEqual(content_of(name), self.wanted)

    def test_faults_name_the_file(self):
        self.fails("no/a.bt: No such file or directory", "-o", "no/a.bt")
        self.fails(".: Is a directory", "-o", ".")
        self.fails("new/: Is a directory", "-o", "new/")
        self.fails("new: two outputs are this file, the other one as ./new",
                   "-o", "./new", "--snapshot", "new")  # fmt: skip

    def test_a_folder_that_is_gone(self):
        os.mkdir("gone")
        os.chdir("gone")
        os.rmdir("../gone")
        words = "map", "--res", "1", "-", "-o", "a.bt"
        self.refused("a.bt: No such file or directory", *words, given=CLOUD)

    def test_no_room(self):
        """Room for less than the map's file; what stood there stands."""
        put_file("a.bt")
        with files_of_at_most(len(self.wanted) // 2):
            self.fails("a.bt: File too large", "-o", "a.bt", "--script", "a.txt")
        self.assertEqual(content_of("a.bt"), OLD_MAP)

    def test_no_room_of_every_command(self):
        """What stood there stands, and nothing else is left."""
        save_map("m.bt", 0.5, {(0, 0, 0): 9})
        for name, *words in (
            ("a.bt", "merge"), ("a.snap", "merge", "--snapshot"), ("a.pgm", "grid"),
            ("a.png", "view"), ("a.png", "view", "--oblique"), ("a.png", "view", "--slice", 0),
            ("a.html", "view"), ("a.ply", "points"), ("a.csv", "points"), ("a.bt", "crop", *BOX),
            ("a.bt", "shift", "--voxels", 1, 0, 0), ("a.bt", "coarsen", "--depth", 3),
        ):  # fmt: skip
            option = [] if words[-1] == "--snapshot" else ["-o"]
            put_file(name)
            before = set(os.listdir())
            said = f"{name}: File too large"
            with files_of_at_most(5):
                self.refused(said, words[0], "m.bt", *words[1:], *option, name)
            self.assertEqual((content_of(name), set(os.listdir())), (old(name), before))

    def test_a_file_that_is_mounted(self):
        """As with `docker -v file`: written in place, and told in a line."""
        put_file("inside.bt")
        put_file("a.bt")
        if subprocess.run(["mount", "--bind", "inside.bt", "a.bt"], capture_output=True).returncode:
            self.skipTest("nothing may be mounted here")
        try:
            ran = self.map("-o", "a.bt")
        finally:
            subprocess.run(["umount", "a.bt"], check=True)
        said = "a.bt: it is mounted by itself, so it was written in place and not at once: what "
        said += "ends the machine meanwhile leaves a part of it"
        self.assertEqual(ran.said, f"octofix: {said}\n")
        self.assertEqual((content_of("inside.bt"), content_of("a.bt")), (self.wanted, OLD_MAP))

    def test_a_folder_that_takes_no_file(self):
        put_file("a.bt")
        error = PermissionError(errno.EACCES, "Permission denied")
        with mock.patch.object(_files.Output, "_open_beside", side_effect=error):
            ran = self.map("-o", "a.bt")
            self.fails("new.bt: Permission denied", "-o", "new.bt")
        self.assertIn("a.bt: its folder takes no new file, so it was written in place", ran.said)
        self.assertEqual(content_of("a.bt"), self.wanted)

    def test_all_or_none(self):
        """The second file can't be put in its place: the first one is as it was."""
        replace = os.replace

        def refuse(source, target):
            if target.endswith("b.snapshot"):
                raise OSError(errno.EPERM, "Operation not permitted", source)
            replace(source, target)

        with mock.patch("os.replace", refuse):
            words = "-o", "b.bt", "--snapshot", "b.snapshot", "--on-error", "stop"
            self.fails("b.snapshot: Operation not permitted", *words)
            put_file("b.bt")
            self.fails("b.snapshot: Operation not permitted", *words)
        self.assertEqual(content_of("b.bt"), OLD_MAP)

    def test_no_room_for_points(self):
        """Of a whole map that is free there are 2^48; none is written."""
        with Map(1) as world:
            world.edit_box((-32768,) * 3, (32767,) * 3, 1, -400)
            world.save("free.bt")
        words = "points", "free.bt", "--what", "free"
        for name, size in (("a.ply", 12), ("a.npy", 24), ("a.xyz", 6)):
            ran = self.done(*words, "-o", name, status=1)
            said = f"octofix: {name}: {2**48} points take {size * 2**48} bytes or more, and there"
            self.assertTrue(ran.said.startswith(said), ran.said)
            self.assertIn("(--depth and --box take fewer)", ran.said)
        self.done(*words, "--depth", 4, "-o", "a.npy")
        self.assertEqual(np.load("a.npy").shape, (2**12, 3))


class Clashes(Maps):
    def test_an_input_is_no_output(self):
        os.link("a.xyz", "hard.xyz")
        os.symlink("a.xyz", "soft.xyz")
        for name in ("a.xyz", "./a.xyz", "hard.xyz", "soft.xyz"):
            for option in ("-o", "--snapshot", "--script"):
                self.fails(f"{name}: it would be written over the input a.xyz", option, name)
        put_file("poses", b"0 0 0 0 0 0 0 1\n")
        words = "-o", "poses", "--poses", "poses"
        self.fails("poses: it would be written over the input poses", *words)
        self.assertEqual(content_of("a.xyz"), CLOUD)

    def test_of_every_command(self):
        said = "a.bt: it would be written over the input a.bt"
        for name in ("a.bt", "a.png"):
            put_file(name, self.wanted)
        for words in (
            ("crop", *BOX), ("shift", "--voxels", 1, 0, 0), ("coarsen", "--depth", 3),
            ("points", "--format", "xyz"),
        ):  # fmt: skip
            self.refused(said, *words, "a.bt", "-o", "a.bt")
        self.refused(said, "grid", "a.bt", "-o", "c.png", "--frontier", "a.bt")
        said = "a.png: it would be written over the input a.png"
        self.refused(said, "view", "a.png", "-o", "a.png")
        said = "c.yaml: two outputs are this file, the other one as c.yaml"
        self.refused(said, "grid", "a.bt", "-o", "c.png", "--frontier", "c.yaml")
        self.assertEqual(content_of("a.bt"), self.wanted)

    def test_an_input_once(self):
        said = "- stands for two inputs, and the standard input can be read once"
        self.refused(said, "compare", "-", "-", given=self.wanted)

    def test_a_forgotten_name_of_maps(self):
        """`-o FILE *.bt` without FILE, with endings or without; what stands behind the maps, or
        isn't beside them in their order, is written over."""
        os.mkdir("out")
        for name in ("1.bt", "2.bt", "3.bt", "b.bt", "out/1.bt", "B.snap", "p_1", "p_2"):
            with Map(0.5) as world:
                world.set([[0.2, 0.2, 0.2]], 9)
                (world.snapshot if name.endswith("snap") else world.save)(name)
        said = "it stands there and seems to be one of the maps (is FILE forgotten?); behind the "
        said += "maps, or with --force, it is replaced"
        put_file("a_old.snap")
        for words in (
            ["merge", "-o", "1.bt", "2.bt", "3.bt"], ["crop", *BOX, "-o", "1.bt", "2.bt"],
            ["merge", "--rule", "first", "-o", "1.bt", "2.bt"],
            ["shift", "--voxels", 1, 0, 0, "-o", "1.bt", "2.bt"],
            ["coarsen", "--depth", 3, "-o", "1.bt", "2.bt"],
            ["merge", "--snapshot", "a_old.snap", "B.snap", "1.bt"], ["merge", "-o", "p_1", "p_2"],
        ):  # fmt: skip
            name = next(it for it in words if it in ("1.bt", "a_old.snap", "p_1"))
            before = content_of(name)
            self.refused(f"{name}: {said}", *words, status=2)
            self.assertEqual(content_of(name), before)
        self.done("merge", "-o", "p_1", "p_2", "--force")
        self.done("crop", *BOX, "-o", "1.bt", "2.bt", "--force")
        for words in (
            ["2.bt", "3.bt", "-o", "1.bt"], ["-o", "b.bt", "2.bt", "3.bt"],
            ["-o", "out/1.bt", "2.bt", "3.bt"], ["-o", "0.bt", "2.bt", "3.bt"],
            ["--snapshot", "0.snap", "2.bt"], ["-o", "/dev/null", "2.bt"],
        ):  # fmt: skip
            self.done("merge", *words, "--rule", "greatest")


class Replaced(Maps):
    """What stands there is replaced where it is of the kind that is written, or empty."""

    WRITES = {
        "a.bt": ("map", "a.xyz", "--res", 0.1), "b.bt": ("merge", "wanted.bt"),
        "c.bt": ("crop", "wanted.bt", "--box", 0, 0, 0, 3, 3, 3),
        "d.bt": ("shift", "wanted.bt", "--voxels", 1, 0, 0),
        "e.bt": ("coarsen", "wanted.bt", "--depth", 3),
        "f.snap": ("map", "a.xyz", "--res", 0.1), "g.snap": ("merge", "wanted.bt"),
        "h.txt": ("map", "a.xyz", "--res", 0.1),
        "i.ply": ("points", "wanted.bt"), "j.pcd": ("points", "wanted.bt"),
        "k.xyz": ("points", "wanted.bt"), "l.csv": ("points", "wanted.bt"),
        "m.npy": ("points", "wanted.bt"), "n.pgm": ("grid", "wanted.bt"),
        "o.png": ("grid", "wanted.bt"), "p.png": ("view", "wanted.bt"),
        "q.png": ("view", "wanted.bt", "--oblique"), "r.html": ("view", "wanted.bt"),
        "s.png": ("view", "wanted.bt", "--slice", 0),
    }  # fmt: skip
    OPTIONS = {"snap": "--snapshot", "txt": "--script"}
    SAID = "octofix: {}: what stands there is not "

    def write(self, name, *more, status=0):
        option = self.OPTIONS.get(name.rpartition(".")[2], "-o")
        return self.done(*self.WRITES[name], option, name, *more, status=status)

    def test_by_the_same_kind(self):
        for name in self.WRITES:
            for content in (b"", old(name)):
                put_file(name, content)
                self.write(name)
                self.assertNotIn(content_of(name), (b"", old(name)), name)
            before = content_of(name)
            self.write(name)
            self.assertEqual(content_of(name), before)

    def test_nothing_else(self):
        """Each kind by each other one, and by text: one line and status 2, nothing is read, and all
        stands as it stood; with --force it is replaced."""
        kinds = {**FRONTS, "jpg": b"\xff\xd8\xff", "md": b"# My notes\n", "py": b"scan = 4\n"}
        endings = {name.rpartition(".")[2]: name for name in self.WRITES}
        for ending, name in endings.items():
            for other in kinds.keys() - {ending}:
                put_file(name, kinds[other])
                before = set(os.listdir())
                ran = self.write(name, status=2)
                self.assertTrue(ran.said.startswith(self.SAID.format(name)), (other, ran.said))
                self.assertEqual(ran.said.count("\n"), 1)
                self.assertEqual((content_of(name), set(os.listdir())), (kinds[other], before))
            self.write(name, "--force")
            self.assertTrue(content_of(name).startswith(FRONTS[ending][:2]) or ending == "xyz")

    def test_told_before_the_work(self):
        """No cloud and no map is read before."""
        put_file("notes.bt", b"mine")
        for words in (
            ["map", "a.xyz", "--res", 0.1], ["crop", "absent.bt", *BOX], ["merge", "gone"],
            ["shift", "absent.bt", "--voxels", 1, 0, 0],
        ):  # fmt: skip
            ran = self.done(*words, "-o", "notes.bt", status=2)
            self.assertIn("what stands there is not a .bt file", ran.said)

    def test_clouds_without_endings(self):
        """`-o scan*`: the first of them would be the map."""
        for name in ("scan000", "scan001"):
            put_file(name, b"2 0 0\n")
        said = "scan000: what stands there is not a .bt file, so it isn't replaced by one "
        said += "(is FILE forgotten? --force replaces it)"
        words = "map", "--res", 0.2, "-o", "scan000", "scan001"
        self.refused(said, *words, status=2)
        self.assertEqual(content_of("scan000"), b"2 0 0\n")

    def test_poses_and_clouds_of_the_same_ending(self):
        """A line of eight numbers is no XYZ of points, and a table no CSV of points."""
        for name, content in (
            ("k.xyz", b"1 0 0 0 0 0 0 1\n"), ("k.xyz", b"1 2\n"),
            ("l.csv", b"x,y,z,i\n1,2,3,4\n"), ("l.csv", b"name,x\n"),
        ):  # fmt: skip
            put_file(name, content)
            self.write(name, status=2)
            self.assertEqual(content_of(name), content)

    def test_what_came_meanwhile(self):
        """Somebody else writes another file to that place while the tool works."""
        put_file("wait.xyz", CLOUD)
        begun = mapper.do_scan

        def scan(*words):
            put_file("a.bt", b"theirs")
            begun(*words)

        with mock.patch("octofix.mapping.mapper.do_scan", scan):
            ran = self.done("map", "--res", 0.1, "wait.xyz", "-o", "a.bt", status=2)
        said = "--force replaces it); the map so far, of 1 scans, is in a.bt.partial"
        self.assertIn(said, ran.said)
        self.assertEqual(content_of("a.bt"), b"theirs")
        self.assertEqual(content_of("a.bt.partial"), self.wanted)

    def test_the_output_of_the_shell(self):
        """What `>> notes` appends to is written to as it is."""
        call = [sys.executable, "-m", "octofix", "crop", "wanted.bt", "--box", *"000999"]
        for name in ("-", "/dev/stdout"):
            put_file("notes", b"before ")
            with open("notes", "ab") as file:
                subprocess.run([*call, "-o", name], stdout=file, check=True)
            self.assertEqual(content_of("notes")[:16], b"before # Octomap")


class Nothing(Maps):
    """A run that has no point for the map."""

    SAID = "no scan has a point, so nothing is written (--allow-empty writes an empty map)"

    def setUp(self):
        super().setUp()
        put_file("a.bt")
        np.save("none.npy", np.empty((0, 3)))
        put_file("endless.xyz", b"nan 0 0\n")

    def nothing(self, said, *words):
        self.refused(said, "map", "--res", "1", *words, "-o", "a.bt", "--snapshot", "b")
        self.assertEqual(content_of("a.bt"), OLD_MAP)
        self.assertFalse(os.path.exists("b"))

    def test_nothing_is_written(self):
        self.nothing(self.SAID, "none.npy")
        self.nothing(f"{self.SAID}; left out 1 points that aren't finite", "endless.xyz")
        words = "--min-range", "9", "a.xyz"
        self.nothing(f"{self.SAID}; left out 1 points by --every, --min-range and --voxel", *words)
        self.nothing(f"{self.SAID}; skipped 1", "--on-error", "skip", "absent.xyz")

    def test_who_means_it(self):
        save_map("empty.bt", 1, {})
        put_file("void.xyz", b"")
        for cloud in ("none.npy", "void.xyz"):
            self.done("map", "--res", "1", cloud, "--allow-empty", "-o", "a.bt")
            self.assertEqual(content_of("a.bt"), content_of("empty.bt"))
            os.unlink("a.bt")
        self.refused("void.xyz: it is empty", "map", "--res", "1", "void.xyz", "-o", "a.bt")


class Grids(InFolder):
    NAMES = (
        "a #b.pgm", "a: b.pgm", "[x].pgm", "'q.pgm", '"q".pgm', "new\nline.pgm", "tab\t.pgm",
        "back\\slash.pgm", "ü.pgm", "\u2028.pgm", "\U0001f5fa.pgm", "~.pgm", "- a.pgm", "{x}.pgm",
        "plain_1.2-a.pgm", "1e3.png",
    )  # fmt: skip

    def setUp(self):
        super().setUp()
        save_map("a.bt", 0.5, {(0, 0, 0): 9})

    def test_plain_and_quoted(self):
        self.assertEqual(text_of("floor-1.pgm"), "floor-1.pgm")
        self.assertEqual(text_of("a #b.pgm"), '"a #b.pgm"')
        self.assertEqual(text_of('"\\\n.pgm'), '"\\"\\\\\\U0000000a.pgm"')

    def test_names_are_read_back(self):
        if yaml is None:
            self.skipTest("PyYAML isn't there")
        for name in self.NAMES:
            with self.subTest(name):
                self.done("grid", "a.bt", "-o", name)
                with open(os.path.splitext(name)[0] + ".yaml", encoding="utf-8") as file:
                    found = yaml.safe_load(file)
                self.assertEqual(found["image"], name)
                self.assertEqual((found["resolution"], found["origin"]), (0.5, [0, 0, 0]))

    def test_a_yaml_of_something_else(self):
        """It has a name that nobody gave, so it is lost in no run."""
        put_file("robot.yaml", b"wheels: 4\n")
        said = "robot.yaml: what stands there is not the YAML of a map, so it isn't replaced by "
        said += "one (is FILE forgotten? --force replaces it)"
        self.refused(said, "grid", "a.bt", "-o", "robot.pgm", status=2)
        self.assertEqual(content_of("robot.yaml"), b"wheels: 4\n")
        for stands in (b"", b"# of ROS\nimage: old.pgm\n"):
            put_file("floor.yaml", stands)
            self.done("grid", "a.bt", "-o", "floor.pgm")
            self.assertIn(b"image: floor.pgm\n", content_of("floor.yaml"))

    def test_both_or_none(self):
        bad = os.fsdecode(b"bad\xff.pgm")
        os.mkdir("floor.yaml")
        said = "bad\\udcff.pgm: its name isn't UTF-8, so that no YAML can name it"
        self.refused(said, "grid", "a.bt", "-o", bad)
        self.refused("floor.yaml: Is a directory", "grid", "a.bt", "-o", "floor.pgm")
        words = "grid", "a.bt", "-o", "c.pgm", "--frontier", "/dev/full"
        self.refused("/dev/full: No space left on device", *words)
        self.assertEqual(sorted(os.listdir()), ["a.bt", "floor.yaml"])


class Names(InFolder):
    def test_standard_output_by_its_descriptor(self):
        """A descriptor is written to where it stands, though a regular file is behind it."""
        with open("file", "w+b") as file:
            file.write(b"before ")
            file.flush()
            _files.write(f"/dev/fd/{file.fileno()}", b"after")
        self.assertEqual(content_of("file"), b"before after")


class FewBytes(io.RawIOBase):
    """A place that takes few bytes at once."""

    def __init__(self):
        self.taken = b""

    def writable(self):
        return True

    def write(self, data):
        part = bytes(data[:99])
        self.taken += part
        return len(part)


class StandardOutput(Maps):
    def test_without_a_buffer(self):
        """As with PYTHONUNBUFFERED: what takes a part of the bytes is given the rest."""
        for words in (["crop", "wanted.bt", "--box", *"000999", "-o", "-"], ["info", "wanted.bt"]):
            place = FewBytes()
            with mock.patch("sys.stdout", io.TextIOWrapper(place, write_through=True)):
                self.assertEqual(main(words), 0)
            self.assertEqual(place.taken, self.done(*words).output)
            self.assertGreater(len(place.taken), 99)

    def test_texts_without_room(self):
        """What --help and --version write is output, too."""
        for words in (["--version"], ["map", "--help"]):
            call = [sys.executable, "-m", "octofix", *words]
            with open("/dev/full", "wb") as full:
                ran = subprocess.run(call, stdout=full, stderr=subprocess.PIPE)
            said = b"octofix: the output: No space left on device\n"
            self.assertEqual((ran.returncode, ran.stderr), (1, said))

    def test_closed(self):
        call = [sys.executable, "-m", "octofix", "crop", "wanted.bt", "--box", *"000999", "-o", "-"]
        ran = subprocess.run(["sh", "-c", '"$@" >&-', "sh", *call], stderr=subprocess.PIPE)
        said = b"octofix: the output: it is closed\n"
        self.assertEqual((ran.returncode, ran.stderr), (1, said))
