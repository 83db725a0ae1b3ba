"""The package is made of layers, each of which imports only itself and those before it."""
import ast
import tempfile
import unittest
from pathlib import Path
from typing import Iterator, NamedTuple

PACKAGE = Path(__file__).resolve().parents[1] / "octofix"
EXAMPLES = PACKAGE.parent / "examples", PACKAGE.parents[2] / "examples"
# Arrays, map and files are the first one, which stands in the package itself.
LAYERS = ("octofix", "octofix.io", "octofix.mapping", "octofix.cli", "octofix.viewer")
# What brings all of them together, and old names of what has moved into a layer. No layer needs it.
ABOVE = {f"octofix.{it}" for it in ("__main__", "_program", "clouds", "live", "tiles")}


class Import(NamedTuple):
    line: int
    name: str


def name_of(file: Path, package: Path) -> str:
    words = [package.name, *file.relative_to(package).with_suffix("").parts]
    return ".".join(words[:-1] if words[-1] == "__init__" else words)


def layer_of(name: str) -> int:
    """The number of the layer that a module is in; one above all for those of ABOVE."""
    top = ".".join(name.split(".")[:2])
    if top in ABOVE:
        return len(LAYERS)
    return LAYERS.index(top) if top in LAYERS else 0


def imports_of(file: Path, package: Path) -> Iterator[Import]:
    """All that a module imports of the package, wherever in it that stands."""
    name = name_of(file, package)
    parent = name if file.name == "__init__.py" else name.rpartition(".")[0]
    for it in ast.walk(ast.parse(file.read_text("utf-8"))):
        if isinstance(it, ast.Import):
            found = [alias.name for alias in it.names]
        elif isinstance(it, ast.ImportFrom):
            words = parent.split(".")[: 1 - it.level or None] if it.level else []
            origin = ".".join([*words, *filter(None, [it.module])])
            found = [f"{origin}.{alias.name}" for alias in it.names]
        elif isinstance(it, ast.Constant) and isinstance(it.value, str):
            # (a module that is imported by its name)
            found = [it.value] if it.value.split(".")[0] == "octofix" else []
        else:
            continue
        yield from (Import(it.lineno, one) for one in found if one.split(".")[0] == "octofix")


def against(package: Path) -> list[str]:
    """The imports of a package that the layers forbid."""
    found = []
    for file in sorted(package.rglob("*.py")):
        own = layer_of(name_of(file, package))
        for it in imports_of(file, package):
            if layer_of(it.name) > own:
                found.append(f"{file.relative_to(package)}:{it.line}: {it.name}")
    return found


def public_names(module: str) -> set[str]:
    """The names that a module of the package lists as public; none where it isn't public itself."""
    place = PACKAGE.parent.joinpath(*module.split("."))
    file = place / "__init__.py" if place.is_dir() else place.with_suffix(".py")
    for it in ast.parse(file.read_text("utf-8")).body if file.is_file() else ():
        if isinstance(it, ast.Assign) and ast.unparse(it.targets[0]) == "__all__":
            return set(ast.literal_eval(it.value))
    return set()


def is_public(name: str) -> bool:
    """Whether each word of a name stands in the list of what is before it; old names do, too."""
    module, _, last = name.rpartition(".")
    if not module or name in ABOVE | set(LAYERS):
        return "_" not in last
    return last in public_names(module) and is_public(module)


class Layers(unittest.TestCase):
    def test_the_package(self):
        self.assertEqual(against(PACKAGE), [])

    def test_what_is_refused(self):
        """Imports against the layers, in each way of writing them, of a package made for this."""
        files = {
            "__init__.py": "",
            "_map.py": "def one():\n    from . import io\n",
            "live.py": "from octofix.mapping.live import Mapper\n",
            "io/__init__.py": "",
            "io/clouds.py": "from octofix import live\nfrom . import poses\nimport octofix.cli\n",
            "mapping/__init__.py": "",
            "mapping/live.py": "from ..io import clouds\nfrom ..viewer.page import page\n",
            "cli/__init__.py": "",
            "cli/command.py": "MODULE = 'octofix.viewer.view'\nPROGRAM = 'octofix'\n",
            "viewer/__init__.py": "from octofix._program import main\nfrom octofix import cli\n",
        }
        with tempfile.TemporaryDirectory() as folder:
            for name, text in files.items():
                file = Path(folder, "octofix", name)
                file.parent.mkdir(parents=True, exist_ok=True)
                file.write_text(text)
            found = against(Path(folder, "octofix"))
        self.assertEqual(found, [
            "_map.py:2: octofix.io",
            "cli/command.py:1: octofix.viewer.view",
            "io/clouds.py:1: octofix.live",
            "io/clouds.py:3: octofix.cli",
            "mapping/live.py:2: octofix.viewer.page.page",
            "viewer/__init__.py:1: octofix._program.main",
        ])  # fmt: skip

    def test_examples_import_what_is_public(self):
        files = [it for folder in EXAMPLES for it in sorted(folder.rglob("*.py"))]
        self.assertIn("octofix_server.py", {it.name for it in files})
        for file in files:
            for it in ast.walk(ast.parse(file.read_text("utf-8"))):
                if isinstance(it, ast.ImportFrom) and (it.module or "").split(".")[0] == "octofix":
                    for alias in it.names:
                        name = f"{it.module}.{alias.name}"
                        self.assertTrue(is_public(name), f"{file}:{it.lineno}: {name}")

    def test_what_is_public(self):
        for it in ("Map", "live", "io.clouds.read", "mapping.tiles", "viewer.colours.by_height"):
            self.assertTrue(is_public(f"octofix.{it}"), it)
        for it in ("_map", "io.errors.Unusable", "io.formats.bags.points_in", "mapping.live.planes",
                   "cli.command.main"):  # fmt: skip
            self.assertFalse(is_public(f"octofix.{it}"), it)

    def test_each_layer_is_there(self):
        for it in LAYERS[1:]:
            self.assertTrue((PACKAGE / it.rpartition(".")[2] / "__init__.py").is_file(), it)
        for it in ABOVE:
            self.assertTrue((PACKAGE / f"{it.rpartition('.')[2]}.py").is_file(), it)
