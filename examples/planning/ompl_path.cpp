// A ball of 0.2 m flies from one end of a hall to the other on a path that OMPL finds. States are
// judged by what octofix knows of the ball's voxels. The path is then looked at: no cast of octofix
// between its states is stopped, and on the map as an octomap::OcTree no occupied and no unknown
// voxel is within the ball's reach.
#include "hall.hpp"

#include <octofix_octomap.hpp>

#include <ompl/base/spaces/RealVectorStateSpace.h>
#include <ompl/geometric/SimpleSetup.h>
#include <ompl/geometric/planners/rrt/RRTConnect.h>
#include <ompl/util/Console.h>
#include <ompl/util/RandomNumbers.h>

#include <cstdio>
#include <memory>

namespace base = ompl::base;

namespace {

constexpr double res = 0.1, radius = 0.2;
const solid flying_space = {{-9.9, -5.9, 0.1}, {9.9, 5.9, 2.9}};

octofix::point point_of(const base::State *state) {
    const double *at = state->as<base::RealVectorStateSpace::StateType>()->values;
    return octofix::metres(at[0], at[1], at[2]);
}

/// The voxels that a ball may meet, as ways from the point in its middle.
std::vector<octofix::point> ball_voxels() {
    const std::int64_t edge = std::llround(res * 1e9), reach = std::llround(radius / res) + 1;
    std::vector<octofix::point> all;
    for (std::int64_t x = -reach; x <= reach; ++x)
        for (std::int64_t y = -reach; y <= reach; ++y)
            for (std::int64_t z = -reach; z <= reach; ++z)
                if (x * x + y * y + z * z <= reach * reach)
                    all.push_back({x * edge, y * edge, z * edge});
    return all;
}

/// Whether the ball is in free space, where what is unknown isn't free.
class judge {
  public:
    explicit judge(const octofix::map &world) : world_(world) {}

    bool is_free(const octofix::point &middle) const {
        return std::all_of(ball_.begin(), ball_.end(), [&](const octofix::point &way) {
            const auto value = world_.get({middle.x + way.x, middle.y + way.y, middle.z + way.z});
            return value && !world_.is_occupied(*value);
        });
    }
    bool is_clear(const octofix::point &from, const octofix::point &to) const {
        return world_.cast(from, to).code == OCTOFIX_CLEAR;
    }

  private:
    const octofix::map &world_;
    const std::vector<octofix::point> ball_ = ball_voxels();
};

std::shared_ptr<base::RealVectorStateSpace> make_space() {
    const auto space = std::make_shared<base::RealVectorStateSpace>(3);
    base::RealVectorBounds bounds(3);
    for (unsigned i = 0; i < 3; ++i) {
        bounds.setLow(i, flying_space.low[i]);
        bounds.setHigh(i, flying_space.high[i]);
    }
    space->setBounds(bounds);
    return space;
}

/// How many places of the ball at a state are occupied, or unknown, on the OctoMap library's map.
int obstacles_near(const base::State *state, const octomap::OcTree &tree) {
    const double *at = state->as<base::RealVectorStateSpace::StateType>()->values;
    constexpr double step = res / 2;
    int found = 0;
    for (double x = -radius; x <= radius; x += step)
        for (double y = -radius; y <= radius; y += step)
            for (double z = -radius; z <= radius; z += step) {
                if (x * x + y * y + z * z > radius * radius) continue;
                const auto *node = tree.search(at[0] + x, at[1] + y, at[2] + z);
                found += node == nullptr || tree.isNodeOccupied(node);
            }
    return found;
}

} // namespace

int main() {
    ompl::msg::setLogLevel(ompl::msg::LOG_WARN);
    ompl::RNG::setSeed(42);
    const octofix::map world = scanned_hall(res, 20000);
    const judge judge(world);
    const auto space = make_space();
    ompl::geometric::SimpleSetup setup(space);
    setup.setStateValidityChecker(
        [&](const base::State *state) { return judge.is_free(point_of(state)); });
    const auto information = setup.getSpaceInformation();
    information->setStateValidityCheckingResolution(0.05 / space->getMaximumExtent());
    setup.setPlanner(std::make_shared<ompl::geometric::RRTConnect>(information));
    base::ScopedState<> start(space), goal(space);
    start[0] = -8.5, start[1] = 0, start[2] = 1;
    goal[0] = 8.5, goal[1] = -3, goal[2] = 1.5;
    setup.setStartAndGoalStates(start, goal);
    if (setup.solve(20) != base::PlannerStatus::EXACT_SOLUTION) {
        std::printf("no path was found\n");
        return 1;
    }
    ompl::geometric::PathGeometric path = setup.getSolutionPath();
    path.interpolate(400);
    octomap::OcTree tree(res);
    octofix::to_octomap(world, tree);
    int near = 0, stopped = 0;
    for (std::size_t i = 0; i < path.getStateCount(); ++i) {
        near += obstacles_near(path.getState(i), tree);
        if (i > 0)
            stopped += !judge.is_clear(point_of(path.getState(i - 1)), point_of(path.getState(i)));
    }
    std::printf("a path; obstacles within reach %d, casts stopped %d\n", near, stopped);
    return near + stopped != 0;
}
