// A mapping loop: lazy scans of a moving sensor, rays, a discretized scan, a box, other log-odds.
#include "client.hpp"

using namespace om;

static void drive(OcTree &tree) {
    for (int i = 0; i < 20; i++) {
        const point3d sensor = at(-3 + 0.3 * i, -1.7 + 0.05 * i, 1.2);
        const Pointcloud cloud = look(sensor.x(), sensor.y(), sensor.z(), 2000, 1u + i);
        if (i % 2 == 0) {
            tree.insertPointCloud(cloud, sensor, 5.0, true);
            continue;
        }
        Pointcloud local; // in the frame of the sensor, as a driver has it
        for (const point3d &p : cloud) local.push_back(p - sensor);
        tree.insertPointCloud(local, at(0, 0, 0), pose6d(sensor, Quaternion()), 5.0, true);
    }
    tree.updateInnerOccupancy();
    tree.prune();
}

int main(int, char **words) {
    OcTree tree(0.05);
    set_model(tree);
    drive(tree);
    census(tree);
    for (unsigned depth : {16u, 14u, 12u, 10u, 4u}) {
        const OcTreeNode *node = tree.search(1.0, 0.41, 1.2, depth);
        std::printf("depth %u: %.3f\n", depth, node ? node->getLogOdds() : NAN);
    }
    std::size_t coarse = 0;
    for (OcTree::iterator it = tree.begin(13), end = tree.end(); it != end; ++it)
        coarse += tree.isNodeOccupied(*it);
    std::printf("occupied at depth 13: %zu\n", coarse);
    for (int i = 0; i < 5; i++)
        tree.insertRay(at(0.01, 0.02, 1.03), at(3.99, 0.5 * i + 0.013, 1.51), i == 4 ? 2.0 : -1.0);
    const point3d sensor = at(0.013, 0.021, 1.23);
    const Pointcloud cloud = look(sensor.x(), sensor.y(), sensor.z(), 2000, 99);
#ifdef DISCRETIZE
    tree.insertPointCloud(cloud, sensor, -1, false, true);
#else
    tree.insertPointCloud(cloud, sensor);
#endif

    point3d low = at(-1.02, -1.51, 0.33), high = at(2.31, 3.2, 1.93);
    tree.setBBXMin(low);
    tree.setBBXMax(high);
    tree.useBBXLimit(true);
    tree.insertPointCloud(look(-2.013, -1.3, 1.21, 3000, 80), at(-2.013, -1.3, 1.21), 4.0);
    tree.useBBXLimit(false);
    census(tree);
    tree.setProbHit(0.9);
    tree.insertPointCloud(look(1, -1, 1.3, 2000, 81), at(1, -1, 1.3));
    dump(tree, words[1]);

    tree.deleteNode(1.0, 0.41, 1.2);
    census(tree);
    tree.setClampingThresMax(0.9);
    tree.setOccupancyThres(0.75);
    for (int i = 0; i < 3; i++) tree.updateNode(at(3.5, 2.5, 2.01), true);
    std::printf("clamped %.2f\n", tree.search(at(3.5, 2.5, 2.01))->getLogOdds());
    tree.toMaxLikelihood();
    tree.prune();
    census(tree);
}
