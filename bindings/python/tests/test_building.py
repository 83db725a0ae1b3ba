"""How the module is compiled and told from others, and what a wheel says of itself."""
import base64
import hashlib
import os
import shutil
import subprocess
import sys
import tarfile
import tempfile
import unittest
import zipfile
from email.parser import Parser
from pathlib import Path
from unittest import mock

HERE = Path(__file__).resolve().parents[1]
sys.path.insert(0, str(HERE))

import octofix_build  # noqa: E402
import octofix_compile  # noqa: E402

IMPORT = "import octofix; print(octofix.Map(0.1).hit((0, 0, 0)))"


class InFolder(unittest.TestCase):
    def setUp(self):
        folder = tempfile.TemporaryDirectory()
        self.addCleanup(folder.cleanup)
        self.folder = Path(folder.name)

    def run_python(self, *words, **named):
        """What a new process says, on its output or else in its last line on standard error."""
        done = subprocess.run(
            [sys.executable, *map(str, words)], cwd=self.folder, capture_output=True, text=True,
            env={**os.environ, "PYTHONPATH": str(self.folder / "python"), **named},
        )  # fmt: skip
        return done.stdout or (done.stderr.strip().splitlines() or [""])[-1]


class Modules(InFolder):
    """The sources, as a clone has them."""

    def setUp(self):
        super().setUp()
        place = self.folder / "python"
        leave_out = shutil.ignore_patterns("*.so", "__pycache__", "tests*", "examples")
        shutil.copytree(HERE, place, ignore=leave_out)
        for it in octofix_compile.headers():
            to = self.folder / it.relative_to(HERE.parent)
            to.parent.mkdir(parents=True)
            shutil.copy(it, to)
        self.compile = place / "octofix_compile.py"

    def test_one_that_is_not_there(self):
        said = "ImportError: the module octofix._native isn't compiled for this Python, which has"
        self.assertIn(said, self.run_python("-c", IMPORT))
        self.assertIn(f"({self.compile.resolve()} makes it)", self.run_python("-c", IMPORT))
        self.compile.unlink()
        self.assertTrue(self.run_python("-c", IMPORT).endswith("from 3.9 on, with a GIL"))

    def test_one_of_other_sources_or_of_another_version(self):
        project = self.compile.with_name("pyproject.toml")
        project.write_text(project.read_text().replace('version = "1', 'version = "7', 1))
        self.assertEqual(self.run_python(self.compile), "")
        said = self.run_python("-c", IMPORT)
        self.assertRegex(said, r"octofix\._native is of version 7\.\S+, and the library of 1\.")
        module = self.folder / "python" / "octofix" / octofix_compile.NAME
        # (of this version, but in a place where other sources stand)
        shutil.copy(HERE / "octofix" / octofix_compile.NAME, module)
        self.assertEqual(self.run_python("-c", IMPORT), "None\n")
        (self.folder / "python" / "native" / "lock.c").write_text("int none;")
        self.assertIn("octofix._native is made of other sources", self.run_python("-c", IMPORT))

    def test_what_cannot_be_compiled(self):
        said = self.run_python(self.compile, CC="/no/cc -O3")
        self.assertEqual(
            said, "octofix: no C compiler is here (the command /no/cc; in Debian gcc)")
        (self.folder / "python" / "native" / "lock.c").write_text("#include <none.h>\n")
        said = self.run_python(self.compile)
        self.assertRegex(said, "^octofix: cc can't compile octofix._native: .*none.h")
        (self.folder / "c" / "octofix.h").unlink()
        self.assertEqual(self.run_python(self.compile), "octofix: octofix.h isn't here")

    def test_without_the_headers_of_python(self):
        nowhere = mock.patch("sysconfig.get_path", return_value=str(self.folder))
        with nowhere, mock.patch.object(octofix_compile, "SYSTEM_PYTHON", "/no/python"):
            with self.assertRaises(octofix_compile.Unfit) as came:
                octofix_compile.compile_to(self.folder / "module")
        self.assertEqual(str(came.exception), "no Python.h is here (in Debian python3-dev)")

    def test_a_release_is_made_by_one_compiler(self):
        with mock.patch.object(octofix_compile, "PINNED_COMPILER", "1.2.3"):
            with self.assertRaises(octofix_compile.Unfit) as came:
                octofix_compile.compile_to(self.folder / "module", is_pinned=True)
        self.assertRegex(
            str(came.exception), r"^a release needs gcc 1\.2\.3 and the headers of Python 3\.11\.2")
        self.assertEqual(list(self.folder.glob("module*")), [])


class Wheels(InFolder):
    def wheel(self):
        files = {"octofix/__init__.py": (0o644, b"")}
        name = octofix_build.write_wheel(self.folder, files, [f"{octofix_build.TAG}-linux_x86_64"])
        self.assertRegex(name, r"^octofix-[\d.]+-cp39-abi3-linux_x86_64\.whl$")
        return zipfile.ZipFile(self.folder / name)

    def test_metadata(self):
        with self.wheel() as wheel:
            info = next(it for it in wheel.namelist() if it.endswith("/METADATA"))
            info = info[: -len("METADATA")]
            about = Parser().parsestr(wheel.read(f"{info}METADATA").decode())
            # License-File, and the text in `licenses`, are from 2.4 on
            self.assertGreaterEqual(tuple(map(int, about["Metadata-Version"].split("."))), (2, 4))
            self.assertEqual(about.get_all("License-File"), ["LICENSE"])
            text = (HERE.parents[1] / "LICENSE").read_bytes()
            self.assertEqual(wheel.read(f"{info}licenses/LICENSE"), text)
            self.assertEqual((about["License-Expression"], about["License"]), ("MIT", None))
            self.assertFalse([it for it in about.get_all("Classifier") if "License" in it])
            self.assertIn("Tag: cp39-abi3-linux_x86_64", wheel.read(f"{info}WHEEL").decode())

    def test_each_file_is_recorded(self):
        with self.wheel() as wheel:
            record = next(it for it in wheel.namelist() if it.endswith("/RECORD"))
            rows = [it.split(",") for it in wheel.read(record).decode().splitlines()]
            self.assertEqual({it[0] for it in rows}, set(wheel.namelist()))
            for name, digest, size in rows:
                if name != record:
                    content = wheel.read(name)
                    found = base64.urlsafe_b64encode(hashlib.sha256(content).digest())
                    self.assertEqual(digest, f"sha256={found.rstrip(b'=').decode()}")
                    self.assertEqual(int(size), len(content))

    def test_projects_urls(self):
        about = {**octofix_build.project(), "urls": {"Source": "https://example.org/octofix"}}
        with mock.patch.object(octofix_build, "project", lambda: about):
            said = Parser().parsestr(octofix_build.metadata())
        self.assertEqual(said.get_all("Project-URL"), ["Source, https://example.org/octofix"])

    def test_an_sdist_has_all_that_is_compiled(self):
        name = octofix_build.build_sdist(self.folder)
        with tarfile.open(self.folder / name) as archive:
            archive.extractall(self.folder)
        top = self.folder / name[: -len(".tar.gz")]
        # (no compiled file, which may be of another machine)
        self.assertEqual(list(top.rglob("*.so")), [])
        module = self.folder / "module.so"
        said = self.run_python(top / "octofix_compile.py", module, PYTHONPATH="")
        self.assertTrue(module.is_file(), said)


if __name__ == "__main__":
    unittest.main()
