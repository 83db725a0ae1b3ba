#!/usr/bin/env python3
"""Compares clouds that other programs write with what the tools read of them, and points that the
tools write with what others read:

    tests/tools_formats.py [--library FOLDER]

Needs numpy, Open3D, meshio and the tools of the Point Cloud Library
(in Debian python3-numpy, python3-open3d, python3-meshio, pcl-tools). Ends with 1 where something
differs.
"""
import os
import subprocess
import sys
import tempfile
from pathlib import Path

ROOT = Path(__file__).resolve().parents[1]
sys.path.append(str(ROOT / "tools/check"))
import options  # noqa: E402

PACKAGE = ROOT / "bindings/python"
MANY = 5_000
PCL_FORMS = ("ascii", "binary", "compressed")


def read_by_tools(name):
    """The points of a file, without those that aren't finite."""
    from octofix.io.formats import Reading, clouds_in

    (cloud,) = clouds_in(name, Reading())
    return cloud.points[np.isfinite(cloud.points).all(axis=1)]


def report(what, came, wanted, tolerance):
    away = np.abs(came - wanted).max() if came.shape == wanted.shape else np.inf
    print(f"{what}: {len(came)} points, at most {away:.1e} m away")
    return away > tolerance


def written_by_others(points):
    """Names of files of these points, and how exact they are."""
    cloud = open3d.geometry.PointCloud(open3d.utility.Vector3dVector(points))
    cloud.colors = open3d.utility.Vector3dVector(np.abs(points) / np.abs(points).max())
    for ending in ("pcd", "ply", "xyz"):
        for is_ascii in (False, True):
            for is_packed in (False, True):
                name = f"open3d_{is_ascii:d}{is_packed:d}.{ending}"
                options = {"write_ascii": is_ascii, "compressed": is_packed}
                open3d.io.write_point_cloud(name, cloud, **options)
                yield name, 1e-4
    for is_binary in (False, True):
        mesh = meshio.Mesh(points, [("triangle", np.array([[0, 1, 2]], np.int32))])
        mesh.write(f"meshio_{is_binary:d}.ply", binary=is_binary)
        yield f"meshio_{is_binary:d}.ply", 1e-12
    np.savetxt("all.xyz", points)
    pcl("pcl_xyz2pcd", "all.xyz", "all.pcd")
    for number, form in enumerate(PCL_FORMS):
        pcl("pcl_convert_pcd_ascii_binary", "all.pcd", f"pcl_{form}.pcd", number)
        yield f"pcl_{form}.pcd", 1e-5
    for number in (0, 1):
        pcl("pcl_pcd2ply", "-format", number, "all.pcd", f"pcl_{number}.ply")
        yield f"pcl_{number}.ply", 1e-4


def pcl(*words):
    subprocess.run(list(map(str, words)), check=True, capture_output=True)


def read_by_others():
    """What others read of the points of a map, and what the tools wrote as an array."""
    from octofix._program import main

    main(["map", "--res", "0.1", "all.xyz", "-o", "map.bt", "--quiet"])
    for ending in ("ply", "pcd", "npy", "xyz"):
        main(["points", "map.bt", "-o", f"points.{ending}"])
    wanted = np.load("points.npy")
    for ending in ("ply", "pcd", "xyz"):
        cloud = open3d.io.read_point_cloud(f"points.{ending}")
        yield f"Open3D reads points.{ending}", np.asarray(cloud.points), wanted
    yield "meshio reads points.ply", meshio.read("points.ply").points, wanted
    pcl("pcl_convert_pcd_ascii_binary", "points.pcd", "ascii.pcd", 0)
    body = Path("ascii.pcd").read_text().split("DATA ascii\n")[1]
    yield "PCL reads points.pcd", np.array(body.split(), float).reshape(-1, 3), wanted


def run():
    points = np.random.default_rng(4).normal(size=(MANY, 3)) * 8
    faults = 0
    for name, tolerance in written_by_others(points):
        faults += report(f"the tools read {name}", read_by_tools(name), points, tolerance)
    for what, came, wanted in read_by_others():
        faults += report(what, came, wanted, 1e-5)
    return min(faults, 1)


if __name__ == "__main__":
    folder = options.library_of(options.parser(__doc__).parse_args())
    os.environ["OCTOFIX_LIBRARY"] = str(Path(folder, "liboctofix.so.1"))
    sys.path.insert(0, str(PACKAGE))
    subprocess.run([sys.executable, PACKAGE / "octofix_compile.py"], check=True)
    import meshio
    import numpy as np
    import open3d

    with tempfile.TemporaryDirectory() as room:
        os.chdir(room)
        status = run()
        os.chdir("/")
    sys.exit(status)
