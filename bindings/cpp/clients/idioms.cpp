// Idioms of programs around the library: a map server, a collision library's descent, messages.
#include "client.hpp"

#include <iostream>
#include <sstream>

using namespace om;

// A server that keeps the floor apart, with sets of keys (as octomap_server does).
static void insert_scan(OcTree &tree, const point3d &sensor, const Pointcloud &ground,
                        const Pointcloud &rest, double range) {
    KeyRay ray;
    KeySet free_cells, occupied_cells;
    OcTreeKey key;
    for (Pointcloud::const_iterator it = ground.begin(); it != ground.end(); ++it) {
        point3d p = *it;
        if ((p - sensor).norm() > range)
            p = sensor + (p - sensor).normalized() * static_cast<float>(range);
        if (tree.computeRayKeys(sensor, p, ray)) free_cells.insert(ray.begin(), ray.end());
        if (tree.coordToKeyChecked(p, key)) free_cells.insert(key);
    }
    for (const point3d &p : rest) {
        if ((p - sensor).norm() <= range) {
            if (tree.computeRayKeys(sensor, p, ray)) free_cells.insert(ray.begin(), ray.end());
            if (tree.coordToKeyChecked(p, key)) occupied_cells.insert(key);
        } else {
            const point3d end = sensor + (p - sensor).normalized() * static_cast<float>(range);
            if (tree.computeRayKeys(sensor, end, ray)) free_cells.insert(ray.begin(), ray.end());
        }
    }
    for (const OcTreeKey &free : free_cells)
        if (occupied_cells.find(free) == occupied_cells.end()) tree.updateNode(free, false);
    for (const OcTreeKey &occupied : occupied_cells) tree.updateNode(occupied, true);
}

// A collision library's descent from the root (as FCL does).
static std::size_t descend(const OcTree &tree, const OcTreeNode *node, unsigned depth) {
    if (!tree.isNodeOccupied(node)) return 0;
    if (!tree.nodeHasChildren(node)) return std::size_t{1} << 3 * (16 - depth);
    std::size_t sum = 0;
    for (unsigned i = 0; i < 8; i++)
        if (tree.nodeChildExists(node, i))
            sum += descend(tree, tree.getNodeChild(node, i), depth + 1);
    return sum;
}

int main(int, char **words) {
    std::shared_ptr<OcTree> tree(new OcTree(0.1));
    set_model(*tree);
    for (int i = 0; i < 3; i++) {
        const point3d sensor = at(-2 + 0.7 * i, -1, 1.21);
        Pointcloud ground, rest;
        for (const point3d &p : look(sensor.x(), sensor.y(), sensor.z(), 2000, 90u + i))
            (p.z() < 0.05f ? ground : rest).push_back(p);
        insert_scan(*tree, sensor, ground, rest, 4.0);
    }
    tree->prune();
    census(*tree);
    std::printf("descent: %zu voxels occupied\n", descend(*tree, tree->getRoot(), 0));

    std::stringstream message, records;
    OcTree got(0.1), part(0.1);
    set_model(got), set_model(part);
    const bool written = tree->writeBinaryConst(message) && tree->writeBinaryData(records);
    const bool read = got.readBinary(message);
    part.readBinaryData(records);
    std::printf("message written %d read %d same %d\n", written, read, got == part);
    census(got);

    const std::string file = std::string(words[1]) + ".ot";
    std::printf("write .ot %d\n", tree->write(file));
    try {
        std::unique_ptr<AbstractOcTree> any(AbstractOcTree::read(file));
        const OcTree *same = dynamic_cast<OcTree *>(any.get());
        std::printf("read .ot %d\n", same != nullptr && same->size() == tree->size());
    } catch (const std::exception &error) {
        std::printf("read .ot: %s\n", error.what());
    }
    std::size_t voxels = 0, free = 0;
    for (OcTree::leaf_iterator it = tree->begin(tree->getTreeDepth()), end = tree->end(); it != end;
         ++it)
        if (tree->isNodeOccupied(*it))
            voxels += it.getDepth() == tree->getTreeDepth();
        else
            free++;
    std::printf("occupied voxels %zu, free leaves %zu\n", voxels, free);
    tree->expand();
    census(*tree);
    tree->prune();
    census(*tree);
    point3d entry;
    const bool enters =
        tree->getRayIntersection(at(0, 0, 0), at(1, 0.3, 0.2), at(2.05, 0.65, 0.45), entry);
    std::printf("entry %d %.3f %.3f %.3f\n", enters, entry.x(), entry.y(), entry.z());
    dump(*tree, words[1]);
}
