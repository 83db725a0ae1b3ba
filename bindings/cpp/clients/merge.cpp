// Two maps are merged by iteration; copies, comparisons, values of nodes, swaps.
#include "client.hpp"

using namespace om;

int main(int, char **words) {
    OcTree a(0.1), b(0.1);
    set_model(a), set_model(b);
    for (int i = 0; i < 4; i++) {
        const double way = 0.2 * i;
        a.insertPointCloud(look(-2 + way, -1, 1.2, 2000, 20u + i), at(-2 + way, -1, 1.2), -1, true);
        b.insertPointCloud(look(2, -1 + way, 1.0, 2000, 30u + i), at(2, -1 + way, 1.0), -1, true);
    }
    a.updateInnerOccupancy(), b.updateInnerOccupancy();
    census(a), census(b);

    OcTree both(a);
    std::printf("the copy is the same %d, the other one %d\n", both == a, both == b);
    for (OcTree::leaf_iterator it = b.begin_leafs(), end = b.end_leafs(); it != end; ++it)
        each_voxel(it, [&](const OcTreeKey &key) { both.updateNode(key, it->getLogOdds(), true); });
    both.updateInnerOccupancy();
    both.prune();
    census(both);

    for (OcTree::leaf_iterator it = a.begin_leafs(), end = a.end_leafs(); it != end; ++it) {
        const OcTreeNode *other = it.getDepth() == 16 ? b.search(it.getKey()) : nullptr;
        if (other && std::fabs(other->getLogOdds()) > std::fabs(it->getLogOdds()))
            a.setNodeValue(it.getKey(), other->getLogOdds(), true);
    }
    a.updateInnerOccupancy();
    census(a);
    for (OcTree::leaf_iterator it = b.begin_leafs(), end = b.end_leafs(); it != end; ++it)
        if (b.isNodeOccupied(*it) && it.getZ() < 0.3) it->setLogOdds(-0.1f); // the floor is free
    b.updateInnerOccupancy();
    census(b);
    a.swapContent(b);
    census(a);
    dump(both, words[1]);
}
