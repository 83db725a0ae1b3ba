"""The crates of this repository, as crates.txt lists them."""
from pathlib import Path

ROOT = Path(__file__).resolve().parents[2]


def lines(root=ROOT):
    """The line of each crate in the crates.txt of a clone, by the crate's name."""
    text = (root / "crates.txt").read_text().splitlines(keepends=True)
    return {it.split(":")[0].split()[0]: it for it in text if it.strip() and it[0] != "#"}


def named():
    """For each crate the libraries that it names, those of the kit among them."""
    return {name: line.partition(":")[2].split() for name, line in lines().items()}


def is_program(name):
    return (ROOT / f"crates/{name}/src/main.rt").is_file()
