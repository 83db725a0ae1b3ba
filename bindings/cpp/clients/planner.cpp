// A planner: is the space of a robot free along a path, what of it is unknown, is a line of sight?
#include "client.hpp"

using namespace om;

static const char *check(const OcTree &tree, const point3d &p) {
    const point3d low = p - at(0.25, 0.25, 0.1), high = p + at(0.25, 0.25, 0.6);
    for (OcTree::leaf_bbx_iterator it = tree.begin_leafs_bbx(low, high), end = tree.end_leafs_bbx();
         it != end; ++it)
        if (tree.isNodeOccupied(*it)) return "hit";
    point3d_list unknown;
    tree.getUnknownLeafCenters(unknown, low, high);
    return unknown.empty() ? "free" : "unknown";
}

static void walk(const OcTree &tree) {
    int hit = 0, unknown = 0, free = 0;
    for (int i = 0; i < 77; i += 2)
        for (int j = 0; j < 57; j += 2) {
            const char *answer = check(tree, at(-3.85 + 0.1 * i, -2.83 + 0.1 * j, 0.513));
            (*answer == 'h' ? hit : *answer == 'u' ? unknown : free)++;
        }
    std::printf("collisions %d unknown %d free %d\n", hit, unknown, free);
}

static void look_around(const OcTree &tree, const std::string &file) {
    Random random(4711);
    std::FILE *out = std::fopen((file + ".casts").c_str(), "w");
    for (int i = 0; i < 3000; i++) {
        const auto place = [&] {
            const double x = 7 * random() - 3.5, y = 5 * random() - 2.5, z = 2 * random() + 0.2;
            return at(x, y, z);
        };
        const point3d from = place(), to = place();
        point3d end(0, 0, 0);
        const bool hit = tree.castRay(from, to - from, end, i % 2, (to - from).norm());
        std::fprintf(out, "%d %.2f %.2f %.2f\n", hit, end.x(), end.y(), end.z());
    }
    std::fclose(out);
}

int main(int, char **words) {
    OcTree tree(0.1);
    set_model(tree);
    for (int i = 0; i < 12; i++) {
        const double x = -3 + 0.5 * i, y = -1.5, z = 1.2;
        tree.insertPointCloud(look(x, y, z, 3000, 7u + i), at(x, y, z), 6.0);
    }
    walk(tree);
    std::size_t leaves = 0, occupied = 0;
    for (OcTree::leaf_bbx_iterator it = tree.begin_leafs_bbx(at(0.01, 0.01, 0.01), at(2, 2, 2)),
                                   end = tree.end_leafs_bbx();
         it != end; ++it)
        leaves++, occupied += tree.isNodeOccupied(*it);
    std::printf("in the box: leaves %zu\noccupied %zu\n", leaves, occupied);
    look_around(tree, words[1]);
    dump(tree, words[1]);
}
