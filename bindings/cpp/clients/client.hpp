// What the clients have in common. They are programs for octomap::OcTree 1.9; with -DOCTOFIX they
// are compiled for octofix::OcTree. The OctoMap library gets the log-odds that octofix has, which
// are whole thousandths.
#ifndef CLIENT_HPP
#define CLIENT_HPP

#ifdef OCTOFIX
#include <octofix_octree.hpp>
namespace om = octofix;
using octofix::Quaternion;
#else
#include <octomap/OcTree.h>
#include <octomap/octomap.h>
namespace om = octomap;
using octomath::Quaternion;
#endif

#include <algorithm>
#include <cmath>
#include <cstdint>
#include <cstdio>
#include <memory>
#include <string>

inline void set_model(om::OcTree &tree) {
#ifndef OCTOFIX
    tree.setProbHit(om::probability(0.847));
    tree.setProbMiss(om::probability(-0.405));
    tree.setClampingThresMin(om::probability(-2.0));
    tree.setClampingThresMax(om::probability(3.511));
#else
    (void)tree;
#endif
}

/// Numbers from 0 to 1, the same on every machine.
class Random {
  public:
    explicit Random(std::uint64_t seed) : state_(seed * 2654435761u + 88172645463325252u) {}
    double operator()() {
        state_ ^= state_ << 13;
        state_ ^= state_ >> 7;
        state_ ^= state_ << 17;
        return static_cast<double>(state_ >> 11) / 9007199254740992.0;
    }

  private:
    std::uint64_t state_;
};

inline om::point3d at(double x, double y, double z) {
    return om::point3d(static_cast<float>(x), static_cast<float>(y), static_cast<float>(z));
}

/// Where a ray from inside a box leaves it, or, from outside, enters it; far away where it doesn't.
inline double distance(const double *from, const double *way, const double *low,
                       const double *high) {
    double enters = 0, leaves = 1e9;
    for (int axis = 0; axis < 3; axis++) {
        const double a = (low[axis] - from[axis]) / way[axis];
        const double b = (high[axis] - from[axis]) / way[axis];
        enters = std::max(enters, std::min(a, b));
        leaves = std::min(leaves, std::max(a, b));
    }
    if (enters >= leaves) return 1e9;
    return enters > 0 ? enters : leaves;
}

/// What a sensor at x y z sees of a room of 8 m by 6 m by 2.5 m with a pillar in it. The walls
/// stand 13.7 mm off the faces of voxels.
inline om::Pointcloud look(double x, double y, double z, int count, std::uint64_t seed) {
    const double off = 0.0137, from[3] = {x, y, z};
    const double room_low[3] = {-4 - off, -3 - off, -off};
    const double room_high[3] = {4 + off, 3 + off, 2.5 + off};
    const double pillar_low[3] = {0.83, 0.41, -off}, pillar_high[3] = {1.47, 1.12, 2.5 + off};
    Random random(seed);
    om::Pointcloud cloud;
    for (int i = 0; i < count; i++) {
        const double turn = 6.283185307179586 * random(), up = 1.6 * random() - 0.8;
        const double flat = std::sqrt(1 - up * up);
        const double way[3] = {flat * std::cos(turn), flat * std::sin(turn), up};
        const double far = std::min(distance(from, way, room_low, room_high),
                                    distance(from, way, pillar_low, pillar_high));
        cloud.push_back(at(x + far * way[0], y + far * way[1], z + far * way[2]));
    }
    return cloud;
}

/// Calls what is given with each voxel of a leaf, by its key.
template <class Leaf, class Call> void each_voxel(const Leaf &leaf, Call call) {
    const om::OcTreeKey low = leaf.getIndexKey();
    const unsigned edge = 1u << (16 - leaf.getDepth());
    for (unsigned x = 0; x < edge; x++)
        for (unsigned y = 0; y < edge; y++)
            for (unsigned z = 0; z < edge; z++)
                call(om::OcTreeKey(static_cast<om::key_type>(low[0] + x),
                                   static_cast<om::key_type>(low[1] + y),
                                   static_cast<om::key_type>(low[2] + z)));
}

/// Writes every known voxel with its value, to a file that ends so.
inline void dump(const om::OcTree &tree, const char *file) {
    std::FILE *out = std::fopen((std::string(file) + ".voxels").c_str(), "w");
    for (om::OcTree::leaf_iterator it = tree.begin_leafs(), end = tree.end_leafs(); it != end; ++it)
        each_voxel(it, [&](const om::OcTreeKey &k) {
            std::fprintf(out, "%u %u %u %.3f\n", k[0], k[1], k[2], it->getLogOdds());
        });
    std::fclose(out);
}

/// Says how many leaves and voxels are free and occupied.
inline void census(const om::OcTree &tree) {
    std::size_t leaves[2] = {0, 0}, voxels[2] = {0, 0};
    for (om::OcTree::leaf_iterator it = tree.begin_leafs(), end = tree.end_leafs(); it != end;
         ++it) {
        const int is_occupied = tree.isNodeOccupied(*it);
        leaves[is_occupied]++;
        voxels[is_occupied] += std::size_t{1} << 3 * (16 - it.getDepth());
    }
    std::printf("free %zu voxels, occupied %zu voxels\n", voxels[0], voxels[1]);
    std::printf("nodes %zu leaves %zu free %zu occupied %zu\n", tree.size(),
                tree.getNumLeafNodes(), leaves[0], leaves[1]);
}

#endif
