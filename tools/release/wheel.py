"""The wheel: the package with its library, which the pip of any Python from 3.9 on takes where
glibc is new enough."""

from pathlib import Path

import octofix_build

# What the command octofix has beside the package, in the folder of a Python's own files.
SHARED = (
    "share/man/man1/octofix.1", "share/bash-completion/completions/octofix",
    "share/zsh/site-functions/_octofix",
)  # fmt: skip
# The older names of policies, of the glibc that each allows.
NAMED = {(2, 5): "manylinux1", (2, 12): "manylinux2010", (2, 17): "manylinux2014"}


def tags_of(needs):
    """The tags of files that need this glibc: the oldest named policy that has it."""
    policy = min((it for it in NAMED if it >= needs), default=needs)
    names = ["manylinux_{}_{}".format(*policy), *[NAMED[policy]] * (policy in NAMED)]
    return [f"{octofix_build.TAG}-{it}_x86_64" for it in names]


def make(release, prefix, out):
    """Packs what Python needs of an installed prefix, and answers the wheel's name."""
    files = octofix_build.package_files(Path(prefix, "lib/python3/octofix"))
    library = Path(prefix, "lib", octofix_build.LIBRARY).read_bytes()
    files[f"octofix/{octofix_build.LIBRARY}"] = 0o755, library
    for name in SHARED:
        place = f"octofix-{release.version}.data/data/{name}"
        files[place] = 0o644, Path(prefix, name).read_bytes()
    more = {"PROVENANCE.txt": release.provenance}
    tags = tags_of(max(release.library.glibc(), release.module.glibc()))
    return octofix_build.write_wheel(out, files, tags, release.version, more, release.time)
