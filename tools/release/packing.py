"""Archives whose bytes depend on their files' names, contents and modes alone, and on one time."""

import gzip
import hashlib
import io
import os
import tarfile
from pathlib import Path

EXECUTABLE = 0o755
PLAIN = 0o644


class Tree(dict):
    """Names to (mode, bytes); of a link the mode is 0, and the target its text."""

    @classmethod
    def of(cls, folder):
        """All that is below a folder."""
        tree, folder = cls(), Path(folder)
        for it in sorted(folder.rglob("*")):
            name = str(it.relative_to(folder))
            if it.is_symlink():
                tree.link(name, os.readlink(it))
            elif it.is_file():
                is_executable = it.stat().st_mode & 0o100
                tree.put(name, it.read_bytes(), EXECUTABLE if is_executable else PLAIN)
        return tree

    def put(self, name, content, mode=PLAIN):
        self[name] = mode, content.encode() if isinstance(content, str) else content

    def link(self, name, target):
        self[name] = 0, target

    def files(self):
        """Pairs of a name and its bytes, in the order of the names, without links."""
        return [(name, content) for name, (mode, content) in sorted(self.items()) if mode]

    def folders(self):
        found = {str(it) for name in self for it in Path(name).parents}
        return sorted(found - {"."})

    def sums(self):
        """Lines as those of sha256sum."""
        return "".join(f"{hashlib.sha256(it).hexdigest()}  {name}\n" for name, it in self.files())

    def write_to(self, folder):
        """Puts all of it below a folder, with its own modes whatever the umask."""
        for name, (mode, content) in self.items():
            at = Path(folder, name)
            at.parent.mkdir(parents=True, exist_ok=True)
            if mode:
                at.write_bytes(content)
                at.chmod(mode)
            else:
                at.symlink_to(content)
        for it in self.folders():
            Path(folder, it).chmod(0o755)


def zipped(content):
    return gzip.compress(content.encode() if isinstance(content, str) else content, 9, mtime=0)


def tar_gz(tree, top, time):
    """The bytes of a .tar.gz with all under the folder `top`."""
    out = io.BytesIO()
    with gzip.GzipFile("", "wb", 9, out, mtime=time) as packed:
        with tarfile.open(mode="w", fileobj=packed, format=tarfile.USTAR_FORMAT) as archive:
            for name in sorted([*tree.folders(), *tree, ""]):
                archive.addfile(*_member(tree, name, top, time))
    return out.getvalue()


def _member(tree, name, top, time):
    it = tarfile.TarInfo(f"{top}/{name}".rstrip("/"))
    it.mtime, it.uname, it.gname = time, "root", "root"
    if name not in tree:
        it.type, it.mode = tarfile.DIRTYPE, 0o755
        return it, None
    mode, content = tree[name]
    if not mode:
        it.type, it.mode, it.linkname = tarfile.SYMTYPE, 0o777, content
        return it, None
    it.mode, it.size = mode, len(content)
    return it, io.BytesIO(content)
