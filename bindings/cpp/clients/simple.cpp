// Updates, searches, casts, iterators and files: the first example of the library, and a bit more.
#include "client.hpp"

#include <iostream>

using namespace om;

static void query(const point3d &p, const OcTreeNode *node) {
    std::cout << "at " << p << ": ";
    if (node)
        std::cout << std::lround(1000 * node->getOccupancy()) << '\n';
    else
        std::cout << "unknown\n";
}

static void fill(OcTree &tree) {
    for (int x = -20; x < 20; x++)
        for (int y = -20; y < 20; y++)
            for (int z = -20; z < 20; z++)
                tree.updateNode(at(x * 0.05 + 0.01, y * 0.05 + 0.01, z * 0.05 + 0.01), true);
    for (int x = -30; x < 30; x++)
        for (int y = -30; y < 30; y++)
            for (int z = -30; z < 30; z++)
                tree.updateNode(at(x * 0.02 - 0.99, y * 0.02 - 0.99, z * 0.02 - 0.99), false);
}

static void cast(const OcTree &tree) {
    const point3d ways[] = {at(1, 0, 0), at(-1, -1, -1), at(0.3, -0.2, 0.9), at(0, 0, -1)};
    for (const point3d &way : ways)
        for (const bool ignore : {false, true}) {
            point3d end;
            const bool hit = tree.castRay(at(-1.33, -1.27, -1.31), way, end, ignore, 5.0);
            std::cout << "cast " << way << ' ' << ignore << ": " << hit << ' ' << end << '\n';
        }
}

int main(int, char **words) {
    OcTree tree(0.1);
    set_model(tree);
    fill(tree);
    for (const point3d &p : {at(0, 0, 0), at(-1, -1, -1), at(1, 1, 1)}) query(p, tree.search(p));
    census(tree);
    for (unsigned depth = 16; depth >= 10; depth -= 2) {
        const OcTreeNode *node = tree.search(-1.05, -1.05, -1.05, depth);
        std::printf("depth %u: %.3f\n", depth, node ? node->getLogOdds() : NAN);
    }
    std::fflush(stdout);
    cast(tree);
    std::cout.flush();
    double x, y, z;
    tree.getMetricMin(x, y, z);
    std::printf("from %.3f %.3f %.3f ", x, y, z);
    tree.getMetricMax(x, y, z);
    std::printf("to %.3f %.3f %.3f\n", x, y, z);
    std::size_t inner = 0, leaves = 0;
    for (OcTree::tree_iterator it = tree.begin_tree(), end = tree.end_tree(); it != end; ++it)
        it.isLeaf() ? leaves++ : inner++;
    std::printf("inner %zu leaves %zu root %.3f children %d\n", inner, leaves,
                tree.getRoot()->getLogOdds(), tree.nodeHasChildren(tree.getRoot()));
    dump(tree, words[1]);

    const std::string file = std::string(words[1]) + ".bt";
    tree.writeBinary(file);
    census(tree);
    OcTree again(file);
    census(again);
    std::printf("as many nodes %d, resolution %.3f\n", again.size() == tree.size(),
                again.getResolution());
    OcTreeKey key;
    std::printf("key of 4000 m: %d; of -0.05: %u\n", again.coordToKeyChecked(at(4000, 0, 0), key),
                again.coordToKey(-0.05));
    std::printf("update outside: %s\n", tree.updateNode(at(4000, 0, 0), true) ? "node" : "null");
}
