// Whether a box robot collides with a map, by FCL over the map as an octomap::OcTree, as MoveIt has
// it; and the same by FCL against each occupied block in turn, which has to agree.
#include "hall.hpp"

#include <octofix_octomap.hpp>

#include <fcl/fcl.h>

#include <cstdio>
#include <memory>

namespace {

constexpr int poses = 300;
const place robot_size = {0.6, 0.4, 0.3};

struct obstacle {
    fcl::Boxd shape;
    fcl::Transform3d at;
};

/// The occupied blocks of a map as boxes.
std::vector<obstacle> occupied_blocks(const octofix::map &world) {
    std::vector<obstacle> all;
    for (const octofix::block &leaf : world.leaves(octofix::sought::occupied)) {
        const double edge = octofix::edge(leaf) * world.resolution();
        place middle{};
        world.middle(leaf, middle[0], middle[1], middle[2]);
        obstacle it{fcl::Boxd(edge, edge, edge), fcl::Transform3d::Identity()};
        it.at.translation() = Eigen::Vector3d(middle[0], middle[1], middle[2]);
        all.push_back(it);
    }
    return all;
}

fcl::Transform3d drawn_pose(places &random) {
    const auto part = [&] { return random.between(-1, 1); };
    const place at = random.in({{-9.9, -5.9, 0.1}, {9.9, 5.9, 2.9}});
    fcl::Transform3d pose = fcl::Transform3d::Identity();
    pose.linear() = Eigen::Quaterniond(part(), part(), part(), part()).normalized().matrix();
    pose.translation() = Eigen::Vector3d(at[0], at[1], at[2]);
    return pose;
}

bool collides_by_blocks(const fcl::Boxd &robot, const fcl::Transform3d &pose,
                        const std::vector<obstacle> &obstacles) {
    return std::any_of(obstacles.begin(), obstacles.end(), [&](const obstacle &it) {
        const double near = 0.5 * (robot.side.norm() + it.shape.side.norm());
        if ((it.at.translation() - pose.translation()).norm() > near) return false;
        fcl::CollisionResultd found;
        return fcl::collide(&robot, pose, &it.shape, it.at, fcl::CollisionRequestd(), found) > 0;
    });
}

} // namespace

int main() {
    const octofix::map world = scanned_hall(0.1, 5000);
    const auto tree = std::make_shared<octomap::OcTree>(0.1);
    octofix::to_octomap(world, *tree);
    const fcl::OcTreed map(std::shared_ptr<const octomap::OcTree>{tree});
    const fcl::Boxd robot(robot_size[0], robot_size[1], robot_size[2]);
    const std::vector<obstacle> obstacles = occupied_blocks(world);
    places random(5);
    int collisions = 0, differences = 0;
    for (int i = 0; i < poses; ++i) {
        const fcl::Transform3d pose = drawn_pose(random), origin = fcl::Transform3d::Identity();
        fcl::CollisionResultd found;
        const bool collides =
            fcl::collide(&robot, pose, &map, origin, fcl::CollisionRequestd(), found) > 0;
        collisions += collides;
        differences += collides != collides_by_blocks(robot, pose, obstacles);
    }
    std::printf("%d poses, %s collide, %d differ\n", poses, collisions > 0 ? "some" : "none",
                differences);
    return collisions == 0 || differences != 0;
}
