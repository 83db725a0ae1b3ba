// A program for the OctoMap library that says nothing of another one: for octofix it is compiled by
// the folder octofix/shim and -Doctomap=octofix -Doctomath=octofix alone. It prints what it sees.
#include <octomap/OcTree.h>
#include <octomap/Pointcloud.h>
#include <octomap/math/Utils.h>
#include <octomap/octomap.h>
#include <octomap/octomap_types.h>

#include <cstdio>
#include <sstream>

namespace octomap {
class OcTree; // as headers of programs have it
}

static void insert_scans(octomap::OcTree &tree) {
    for (int i = 0; i < 8; i++) {
        octomap::Pointcloud cloud;
        for (int j = 0; j < 60; j++) {
            const octomath::Quaternion turn(0.0, DEG2RAD(0.3 * j - 9), DEG2RAD(1.5 * j - 45.7));
            cloud.push_back(turn.rotate(octomath::Vector3(2.03f + 0.017f * j, 0, 0)));
        }
        const octomap::pose6d frame(0.1137f * i, 0.0213f, 0.5171f, 0, 0, 0.2 * i);
        tree.insertPointCloud(cloud, octomap::point3d(0, 0, 0), frame, 3.5);
    }
}

int main() {
    using namespace octomap;
    OcTree tree(0.1);
    tree.enableChangeDetection(true);
    insert_scans(tree);
    tree.prune();
    std::size_t leaves = 0, occupied = 0;
    for (OcTree::leaf_iterator it = tree.begin_leafs(), end = tree.end_leafs(); it != end; ++it) {
        leaves++;
        occupied += tree.isNodeOccupied(*it);
    }
    std::printf("leaves %zu occupied %zu nodes %zu changed %zu\n", leaves, occupied, tree.size(),
                tree.numChangesDetected());
    std::stringstream file;
    AbstractOcTree *made = OcTree::createTree("OcTree", 0.1);
    OcTree *read = dynamic_cast<OcTree *>(made);
    const bool is_read = tree.writeBinary(file) && read->readBinary(file);
    std::printf("read %d equal %d %s\n", is_read, *read == tree, read->getTreeType().c_str());
    delete made;
}
