// Public members of octofix::OcTree, its points, poses, clouds and rays that no other test calls:
// a row of a table each, which has to show the same of both libraries.
#include "both_libraries.hpp"

#include <cstdio>
#include <functional>
#include <iomanip>
#include <sstream>
#include <vector>

namespace {

struct Row {
    const char *name;
    std::function<void(std::ostream &)> show;
};

/// A small map: a beam of three voxels, of which the last one is occupied.
template <class L> struct Beam : Even<L> {
    explicit Beam(double res = 0.1) : Even<L>(res) {
        for (int i = 0; i < 5; ++i) this->updateNode(at(2), true);
        this->updateNode(at(0), false), this->updateNode(at(1), false);
    }
    static typename L::Key at(unsigned x) {
        return {static_cast<std::uint16_t>(32768 + x), 32768, 32768};
    }
};

template <class L> std::vector<Row> rows_of_trees() {
    using Key = typename L::Key;
    using Point = typename L::Point;
    return {
        {"adjustKeyAtDepth",
         [](auto &out) {
             for (const unsigned depth : {0u, 1u, 13u, 16u})
                 out << text_of(Beam<L>().adjustKeyAtDepth(Key(32771, 5, 65535), depth)) << ' ';
         }},
        {"computeChildIdx",
         [](auto &out) {
             for (const int bit : {0, 7, 15}) out << L::child_of(Key(32771, 128, 65535), bit);
         }},
        {"computeIndexKey",
         [](auto &out) {
             for (const unsigned short level : {0, 3, 16})
                 out << text_of(L::block_of(level, Key(32771, 128, 65535))) << ' ';
         }},
        {"create",
         [](auto &out) {
             const Even<L> tree(0.2);
             std::unique_ptr<typename L::Tree> other(tree.create());
             out << other->getResolution() << other->size();
         }},
        {"getMetricSize",
         [](auto &out) {
             double x, y, z;
             Beam<L>().getMetricSize(x, y, z);
             out << x << ' ' << y << ' ' << z;
         }},
        {"getNodeSize", [](auto &out) { out << Beam<L>().getNodeSize(12); }},
        {"integrateHit",
         [](auto &out) {
             Beam<L> tree;
             auto *node = tree.search(Beam<L>::at(0));
             tree.integrateHit(node);
             out << node->getLogOdds() << ' ' << tree.search(Beam<L>::at(0))->getLogOdds();
         }},
        {"integrateMiss",
         [](auto &out) {
             Beam<L> tree;
             auto *node = tree.search(Beam<L>::at(2));
             tree.integrateMiss(node);
             out << node->getLogOdds();
         }},
        {"isNodeAtThreshold",
         [](auto &out) {
             Beam<L> tree;
             for (const unsigned x : {0, 2})
                 out << tree.isNodeAtThreshold(tree.search(Beam<L>::at(x)))
                     << tree.isNodeAtThreshold(*tree.search(Beam<L>::at(x)));
         }},
        {"isNodeCollapsible",
         [](auto &out) { out << Beam<L>().isNodeCollapsible(Beam<L>().getRoot()); }},
        {"memoryFullGrid", [](auto &out) { out << Beam<L>(0.5).memoryFullGrid(); }},
        {"memoryUsage",
         [](auto &out) { out << (Beam<L>().memoryUsage() > Beam<L>().memoryUsageNode()); }},
        {"setValue",
         [](auto &out) {
             typename L::Node node;
             node.setValue(0.75f);
             out << node.getValue();
         }},
        {"updateNodeLogOdds",
         [](auto &out) {
             Beam<L> tree;
             auto *node = tree.search(Beam<L>::at(0));
             tree.updateNodeLogOdds(node, 0.5f);
             out << node->getLogOdds();
         }},
        {"volume", [](auto &out) { out << Beam<L>().volume(); }},
        {"writeData",
         [](auto &out) {
             std::ostringstream data;
             Beam<L>().writeData(data);
             out << data.str().size();
         }},
        {"getCoordinate and getY",
         [](auto &out) {
             const Beam<L> tree;
             const Point there = tree.begin_leafs().getCoordinate();
             out << there.x() << ' ' << there.y() << ' ' << tree.begin_leafs().getY();
         }},
    };
}

template <class L> std::vector<Row> rows_of_scans() {
    using Point = typename L::Point;
    static const Point origin(0.03f, 0.02f, 0.01f);
    static const auto cloud = [] {
        typename L::Cloud points;
        points.push_back(1.03f, 0.21f, 0.31f), points.push_back(1.04f, 0.22f, 0.32f);
        points.push_back(0.53f, -0.71f, 0.33f);
        return points;
    };
    static const auto show_box = [](std::ostream &out, auto ask) {
        Even<L> tree;
        Point low(-1, -2, -3), high(1, 4, 3);
        tree.setBBXMin(low), tree.setBBXMax(high);
        out << ask(tree);
    };
    return {
        {"computeRay",
         [](auto &out) {
             std::vector<Point> ray;
             out << Even<L>().computeRay(origin, Point(0.57f, 0.21f, 0.12f), ray);
             for (const Point &it : ray) out << it;
             out << Even<L>().computeRay(origin, Point(1e6f, 0, 0), ray);
         }},
        {"computeDiscreteUpdate",
         [](auto &out) {
             Even<L> tree;
             typename L::Keys free_cells, occupied_cells;
             tree.computeDiscreteUpdate(cloud(), origin, free_cells, occupied_cells, -1);
             out << occupied_cells.size() << (free_cells.size() > 8);
         }},
        {"insertPointCloudRays",
         [](auto &out) {
             Even<L> tree;
             tree.insertPointCloudRays(cloud(), origin);
             auto *twice = tree.search(1.03, 0.21, 0.31), *once = tree.search(0.53, -0.71, 0.33);
             out << (twice->getLogOdds() > 1.5f * once->getLogOdds()) << ' ' << tree.size();
         }},
        {"the model",
         [](auto &out) {
             const Even<L> tree;
             out << std::setprecision(2) << tree.getProbHit() << ' ' << tree.getProbHitLog() << ' '
                 << tree.getProbMiss() << ' ' << tree.getProbMissLog() << ' '
                 << tree.getOccupancyThres() << ' ' << tree.getOccupancyThresLog() << ' '
                 << tree.getClampingThresMinLog() << ' ' << tree.getClampingThresMaxLog();
         }},
        {"getBBXMin", [](auto &out) { show_box(out, [](auto &it) { return it.getBBXMin(); }); }},
        {"getBBXMax", [](auto &out) { show_box(out, [](auto &it) { return it.getBBXMax(); }); }},
        {"getBBXBounds",
         [](auto &out) { show_box(out, [](auto &it) { return it.getBBXBounds(); }); }},
        {"getBBXCenter",
         [](auto &out) { show_box(out, [](auto &it) { return it.getBBXCenter(); }); }},
        {"inBBX of points",
         [](auto &out) {
             for (const float y : {-2.1f, -2.0f, 0.0f, 4.0f, 4.1f})
                 show_box(out, [&](auto &it) { return it.inBBX(Point(0, y, 0)); });
         }},
        {"inBBX of keys",
         [](auto &out) {
             for (const std::uint16_t y : {32747, 32748, 32768, 32808, 32809})
                 show_box(out, [&](auto &it) {
                     return it.inBBX(typename L::Key(32768, y, 32768));
                 });
         }},
    };
}

template <class L> std::vector<Row> rows_of_points() {
    using Point = typename L::Point;
    using Pose = typename L::Pose;
    static const Point a(1, 2, 3), b(-2, 0.5f, 4);
    return {
        {"cross", [](auto &out) { out << a.cross(b); }},
        {"dot", [](auto &out) { out << a.dot(b); }},
        {"norm_sq", [](auto &out) { out << a.norm_sq(); }},
        {"angleTo", [](auto &out) { out << a.angleTo(b); }},
        {"distanceXY", [](auto &out) { out << a.distanceXY(b); }},
        {"toEuler", [](auto &out) { out << typename L::Turn(0.9, 0.1, -0.3, 0.2).toEuler(); }},
        {"inv_IP of a quaternion",
         [](auto &out) {
             typename L::Turn turn(0.9, 0.1, -0.3, 0.2);
             turn.normalize();
             out << turn.inv_IP();
         }},
        {"inv_IP of a pose",
         [](auto &out) {
             Pose pose(1, 2, 3, 0.1, 0.2, 0.3);
             out << pose.inv_IP();
         }},
        {"transLength", [](auto &out) { out << Pose(1, 2, 3, 0.1, 0.2, 0.3).transLength(); }},
        {"trans", [](auto &out) { out << Pose(1, 2, 3, 0.1, 0.2, 0.3).trans(); }},
        {"distance of poses",
         [](auto &out) { out << Pose(1, 2, 3, 0, 0, 0).distance(Pose(4, 6, 3, 0, 0, 1)); }},
    };
}

template <class L> std::vector<Row> rows_of_lists() {
    using Point = typename L::Point;
    static const auto cloud = [] {
        typename L::Cloud points;
        points.reserve(4);
        for (int i = 0; i < 4; ++i) points.push_back(static_cast<float>(i), 1, -2);
        return points;
    };
    return {
        {"calcBBX",
         [](auto &out) {
             Point low, high;
             cloud().calcBBX(low, high);
             out << low << high;
         }},
        {"crop",
         [](auto &out) {
             auto points = cloud();
             points.crop(Point(1, 0, -3), Point(2, 1, 3));
             out << points.size() << points.getPoint(0);
         }},
        {"subSampleRandom",
         [](auto &out) {
             typename L::Cloud some;
             auto points = cloud();
             points.subSampleRandom(3, some);
             out << some.size();
         }},
        {"KeyRay",
         [](auto &out) {
             typename L::Ray ray;
             for (const std::uint16_t x : {1, 2, 3}) ray.addKey(typename L::Key(x, 0, 0));
             for (auto it = ray.rbegin(); it != ray.rend(); ++it) out << text_of(*it) << ' ';
             out << ray.size() << (ray.sizeMax() >= 3);
             ray.reset();
             out << ray.size() << (ray.begin() == ray.end());
         }},
    };
}

int failed = 0;

void compare(const std::vector<Row> &mine, const std::vector<Row> &theirs) {
    for (std::size_t i = 0; i < mine.size(); ++i) {
        std::ostringstream a, b;
        a << std::fixed << std::setprecision(3), b << std::fixed << std::setprecision(3);
        mine[i].show(a), theirs[i].show(b);
        if (a.str() == b.str() && !a.str().empty()) continue;
        failed++;
        std::printf("%s: %s, and in the OctoMap library %s\n", mine[i].name, a.str().c_str(),
                    b.str().c_str());
    }
}

} // namespace

int main() {
    compare(rows_of_trees<Mine>(), rows_of_trees<Theirs>());
    compare(rows_of_scans<Mine>(), rows_of_scans<Theirs>());
    compare(rows_of_points<Mine>(), rows_of_points<Theirs>());
    compare(rows_of_lists<Mine>(), rows_of_lists<Theirs>());
    std::printf("members: %d failed\n", failed);
    return failed != 0;
}
