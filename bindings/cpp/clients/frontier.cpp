// Frontiers: free voxels with an unknown one beside them, by iteration and search.
#include "client.hpp"

using namespace om;

static bool is_open(const OcTree &tree, const OcTreeKey &key) {
    for (unsigned axis = 0; axis < 3; axis++)
        for (const int side : {-1, 1}) {
            OcTreeKey beside = key;
            beside[axis] = static_cast<key_type>(beside[axis] + side);
            if (!tree.search(beside)) return true;
        }
    return false;
}

int main(int, char **words) {
    OcTree tree(0.1);
    set_model(tree);
    for (int i = 0; i < 2; i++)
        tree.insertPointCloud(look(-2 + i, -1, 1.2, 4000, 5u + i), at(-2 + i, -1, 1.2), 3.0);
    std::size_t found = 0;
    point3d sum(0, 0, 0);
    for (OcTree::leaf_iterator it = tree.begin_leafs(), end = tree.end_leafs(); it != end; ++it) {
        if (tree.isNodeOccupied(*it)) continue;
        each_voxel(it, [&](const OcTreeKey &key) {
            if (!is_open(tree, key)) return;
            found++;
            sum += tree.keyToCoord(key);
        });
    }
    sum /= static_cast<float>(found);
    std::printf("frontier %zu, middle %.2f %.2f %.2f\n", found, sum.x(), sum.y(), sum.z());
    census(tree);
    dump(tree, words[1]);
}
