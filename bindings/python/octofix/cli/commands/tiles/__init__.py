"""Maps of any extent: cubes of voxels, the tiles, in a folder, made and asked by any number of
processes or machines.

    octofix tiles build town --res 0.05 --poses poses.txt clouds/*.pcd --jobs 0
    octofix tiles add town --poses more.txt more/*.pcd --scheduler tcp://head:8786
    octofix tiles crop town --box -5 -5 0 5 5 2 -o room.bt

Joined, the tiles are the map that one process makes, byte for byte. SCALING.md beside TOOLS.md says
how a team with many machines does it.
"""

HELP = "maps of any extent, as cubes in a folder"
