// How far it is from each voxel of a box to the next occupied one, by dynamicEDT3D over the map as
// an octomap::OcTree. Writes the map as a snapshot, and the distances in metres as floats, z
// fastest: clearances.py computes them by SciPy.
//
//     clearances HALL.snap DISTANCES
#include "hall.hpp"

#include <octofix_octomap.hpp>

#include <dynamicEDT3D/dynamicEDTOctomap.h>

#include <cstdio>
#include <fstream>

int main(int count, char **words) {
    if (count != 3) return 2;
    constexpr double res = 0.1;
    constexpr float farthest = 2;
    const octofix::map world = scanned_hall(res, 5000);
    world.snapshot_to(words[1]);
    octomap::OcTree tree(res);
    octofix::to_octomap(world, tree);
    const octomap::point3d low(-9.95f, -5.95f, 0.05f), high(9.95f, 5.95f, 2.95f);
    constexpr bool unknown_is_occupied = false;
    DynamicEDTOctomap distances(farthest, &tree, low, high, unknown_is_occupied);
    distances.update();
    std::ofstream file(words[2], std::ios::binary);
    for (int x = 0; x < 200; ++x)
        for (int y = 0; y < 120; ++y)
            for (int z = 0; z < 30; ++z) {
                const octomap::point3d way(0.1f * x, 0.1f * y, 0.1f * z);
                const float it = distances.getDistance(low + way);
                file.write(reinterpret_cast<const char *>(&it), sizeof it);
            }
    file.close();
    return file ? 0 : 1;
}
