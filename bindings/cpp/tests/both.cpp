// One program with both libraries: their names don't clash, they build the same map of a scan, each
// by its own calls, and each reads the other's file.
#include <octofix_octree.hpp>
#include <octomap/OcTree.h>
#include <octomap/octomap.h>

#include <cstdio>
#include <memory>
#include <sstream>

int main() {
    octomap::OcTree theirs(0.1);
    octofix::OcTree mine(0.1);
    octomap::Pointcloud cloud;
    octofix::Pointcloud same;
    for (int i = 0; i < 500; i++) {
        const float x = 2.03f + 0.0031f * static_cast<float>(i);
        const float y = 0.017f * static_cast<float>(i % 71);
        const float z = 0.013f * static_cast<float>(i % 37) - 0.2f;
        cloud.push_back(x, y, z);
        same.push_back(x, y, z);
    }
    theirs.insertPointCloud(cloud, octomap::point3d(0.01f, 0.02f, 0.03f));
    mine.insertPointCloud(same, octofix::point3d(0.01f, 0.02f, 0.03f));

    std::stringstream values;
    mine.write(values);
    const std::unique_ptr<octomap::AbstractOcTree> any(octomap::AbstractOcTree::read(values));
    const auto *other = dynamic_cast<const octomap::OcTree *>(any.get());
    bool is_same = other && other->size() == mine.size();
    for (auto it = mine.begin_leafs(), end = mine.end_leafs(); is_same && it != end; ++it) {
        const octofix::OcTreeKey key = it.getKey();
        const octomap::OcTreeNode *node = other->search(octomap::OcTreeKey(key[0], key[1], key[2]));
        is_same = node && node->getLogOdds() == it->getLogOdds();
    }

    std::stringstream file;
    const bool written = theirs.writeBinary(file);
    octofix::OcTree read(0.5);
    const bool done = read.readBinary(file);
    mine.toMaxLikelihood();
    std::printf("values %d written %d read %d same %d\n", is_same, written, done, read == mine);
    return !(is_same && written && done && read == mine);
}
