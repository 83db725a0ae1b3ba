"""What a release has for browsers and Node: the npm package, and the page for maps."""

import shutil
from pathlib import Path

from packing import Tree, tar_gz

README = """\
# octofix {version}

The map that a robot builds from range scans, exact to the voxel, in browsers and in Node from 20
on. [octofix.d.ts](octofix.d.ts) has all calls, and PROVENANCE.txt says what is proved.

    import {{load}} from "octofix";
    const {{OccMap}} = await load();
    const map = new OccMap(0.1);
    map.scan([2, 0, 0, 0, 1, 0], [0.05, 0.05, 0.05]);
    console.log(map.get([2.05, 0.05, 0.05]));

Node before 24 takes 64-bit memories with the flag --experimental-wasm-memory64.
"""
PAGE = "lib/python3/octofix/viewer/assets/viewer.html"


def make(release, prefix, out):
    """Packs what is installed for them under a prefix, and answers both names. (The package is in
    the form of `npm pack`.)"""
    tree = Tree.of(Path(prefix, "share/octofix/web"))
    about = tree["package.json"][1].decode()
    tree.put("package.json", about.replace(f'"{release.number}"', f'"{release.version}"'))
    tree.put("README.md", README.format(version=release.version))
    tree.put("LICENSE", release.read("LICENSE"))
    tree.put("PROVENANCE.txt", release.provenance)
    package, page = f"octofix-{release.version}.tgz", f"octofix-viewer-{release.version}.html"
    Path(out, package).write_bytes(tar_gz(tree, "package", release.time))
    shutil.copyfile(Path(prefix, PAGE), Path(out, page))
    return [package, page]
