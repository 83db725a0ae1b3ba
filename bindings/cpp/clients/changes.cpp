// Change detection: which voxels are new or have turned after each scan.
#include "client.hpp"

using namespace om;

static void take_pillar_away(OcTree &tree) {
    for (int times = 0; times < 6; times++)
        for (int z = 0; z < 25; z++)
            for (int y = 0; y < 7; y++)
                tree.updateNode(at(0.85, 0.45 + 0.1 * y, 0.05 + 0.1 * z), false);
}

int main(int, char **words) {
    OcTree tree(0.1);
    set_model(tree);
    tree.enableChangeDetection(true);
    std::FILE *out = std::fopen((std::string(words[1]) + ".keys").c_str(), "w");
    for (int i = 0; i < 8; i++) {
        const double x = -2 + 0.4 * i;
        tree.insertPointCloud(look(x, 0, 1.1, 1500, 40u + i), at(x, 0, 1.1), 4.0);
        if (i == 3) take_pillar_away(tree);
        std::size_t fresh = 0, turned = 0;
        for (KeyBoolMap::const_iterator it = tree.changedKeysBegin(), end = tree.changedKeysEnd();
             it != end; ++it) {
            (it->second ? fresh : turned)++;
            const OcTreeKey &k = it->first;
            std::fprintf(out, "%d %u %u %u %d\n", i, k[0], k[1], k[2], it->second);
        }
        std::printf("scan %d: changes %zu, new %zu, turned %zu\n", i, tree.numChangesDetected(),
                    fresh, turned);
        if (i % 2) tree.resetChangeDetection();
    }
    std::fclose(out);
    dump(tree, words[1]);
}
