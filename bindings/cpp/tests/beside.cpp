// What octofix::OcTree and its points, poses and clouds answer beside the OctoMap library, on the
// same calls: each test writes what it sees for one library, and the two texts have to be the same.
#include "both_libraries.hpp"

#include <cstdio>
#include <iomanip>
#include <limits>
#include <random>
#include <set>
#include <sstream>
#include <string>

namespace {

/// The known voxels, each with whether it is occupied.
template <class Tree> std::string classes_of(Tree &tree) {
    tree.prune();
    std::set<std::string> lines;
    for (auto it = tree.begin_leafs(), end = tree.end_leafs(); it != end; ++it)
        lines.insert(std::to_string(it.getDepth()) + ' ' + text_of(it.getKey()) +
                     (tree.isNodeOccupied(*it) ? " occupied\n" : " free\n"));
    std::string text;
    for (const std::string &line : lines) text += line;
    return text;
}

template <class Tree> std::string changes_of(const Tree &tree) {
    std::set<std::string> lines;
    for (auto it = tree.changedKeysBegin(); it != tree.changedKeysEnd(); ++it)
        lines.insert(text_of(it->first) + (it->second ? " new\n" : " turned\n"));
    std::string text = std::to_string(tree.numChangesDetected()) + '\n';
    for (const std::string &line : lines) text += line;
    return text;
}

template <class L> void show_numbers(std::ostream &out) {
    typename L::Point p(1.5f, -2.25f, 3);
    typename L::Turn euler(typename L::Point(0.1f, 0.2f, 0.3f));
    typename L::Turn turn(typename L::Point(0.6f, 0, 0.8f), 0.5);
    typename L::Pose pose(1, 2, 3, 0.1, 0.2, 0.3), other(pose);
    std::vector<double> matrix;
    turn.toRotMatrix(matrix);
    for (const double it : matrix) out << it << ' ';
    other *= pose;
    other.x() += 1, other.rot().u() += 1;
    out << p << euler << turn * p << p * turn << (euler == turn) << '\n' << pose << other << '\n';
    out << (pose == other) << (pose != other) << other.rot().normalized();
    other.rot().normalize(), other.rot() /= 2;
    out << other.rot() << other.rot()(3) << '\n';
    std::stringstream text, binary;
    pose.write(p.write(text) << ' ');
    pose.writeBinary(p.writeBinary(binary));
    out << text.str() << ' ' << binary.str().size() << '\n';
    typename L::Point same;
    typename L::Pose again;
    again.read(same.read(text));
    out << same << again;
    again.readBinary(same.readBinary(binary));
    out << same << again << '\n';
}

template <class L> void show_points(std::ostream &out, const typename L::Cloud &cloud) {
    for (const auto &p : cloud) out << p;
    out << '\n';
}

template <class L> void show_clouds(std::ostream &out) {
    typename L::Cloud cloud;
    cloud.push_back(1, 2, 3), cloud.push_back(0.1f, 0.1f, 3), cloud.push_back(4, 0, 0);
    std::stringstream binary, text("1 2 3\n4 5 6\n7 8");
    cloud.writeBinary(binary);
    out << binary.str().size() << '\n';
    for (const double yaw : {0.25, 1.0, 1.0}) {
        cloud.transformAbsolute(typename L::Pose(0, 1, 0, 0.1, 0, yaw));
        show_points<L>(out, cloud);
    }
    cloud.rotate(0.1, 0.2, 0.3);
    typename L::Cloud copy(cloud), pointed(&cloud);
    for (typename L::Cloud *it : {&copy, &pointed}) {
        it->transformAbsolute(typename L::Pose(0, 1, 0, 0, 0, 1));
        show_points<L>(out, *it);
    }
    cloud.minDist(4.1);
    show_points<L>(out, cloud);
    cloud.clear(); // which the OctoMap library asks for
    cloud.readBinary(binary);
    cloud.read(text);
    show_points<L>(out, cloud);
}

template <class L> void show_keys(std::ostream &out) {
    const typename L::Tree tree(0.1);
    std::uint16_t number = 0;
    out << tree.coordToKeyChecked(0.55, 14, number) << number;
    out << tree.coordToKeyChecked(5000.0, 14, number) << '\n';
    for (unsigned pos = 0; pos < 8; ++pos)
        for (const std::uint16_t offset : {4, 0})
            out << text_of(L::child(pos, offset, {32776, 32780, 40000})) << '\n';
}

/// A point far away beside those at hand, and ranges that no beam has.
template <class L> void show_ranges(std::ostream &out) {
    for (const double range : {5.0, 1e7, 1.1e7, 3e7, 1e300, -1.0}) {
        Even<L> tree;
        typename L::Cloud cloud;
        cloud.push_back(2.03f, 0.02f, 0.01f);
        cloud.push_back(9.9999e6f, 1.3e6f, 2.1e6f);
        cloud.push_back(3e9f, 4.1e8f, 0);
        tree.insertPointCloud(cloud, {-3000.02f, 0.03f, 0.01f}, range);
        tree.insertPointCloud(cloud, {0.02f, 0.03f, 0.01f}, range);
        out << tree.insertRay({0.02f, 0.03f, 0.01f}, {1.03f, 1.24f, 0.51f}, range);
        out << tree.insertRay({0.02f, 0.03f, 0.01f}, {4e7f, 1.24f, 0.51f}, range) << '\n'
            << classes_of(tree);
    }
}

/// Beams that are cut within half a voxel of the border of the map.
template <class L> void show_borders(std::ostream &out) {
    Even<L> tree(0.01);
    std::mt19937 random(7);
    for (int i = 0; i < 400; ++i) {
        const auto near = [&] { return 0.001f * static_cast<float>(random() % 1000); };
        const float from = 327 + 0.5f * near(), y = near(), z = near();
        const double range = 327.68 - from + 1e-5 * (static_cast<int>(random() % 9) - 6);
        out << tree.insertRay({from, y, z}, {400, y, z}, range);
        typename L::Cloud cloud;
        cloud.push_back(400, y, z);
        tree.insertPointCloud(cloud, {from, y, z}, range);
    }
    out << '\n' << classes_of(tree);
}

/// Bounds that no voxel comes to, and hits that say nothing.
template <class L> void show_models(std::ostream &out) {
    Even<L> tree;
    tree.setClampingThresMin(0);
    tree.setClampingThresMax(1);
    out << tree.getClampingThresMin() << ' ' << tree.getClampingThresMax() << '\n';
    for (int i = 0; i < 50; ++i) tree.updateNode(0.55, 0.55, 0.55, 0.847f);
    for (int i = 0; i < 50; ++i) tree.updateNode(0.65, 0.55, 0.55, -0.405f);
    out << tree.search(0.55, 0.55, 0.55)->getLogOdds() << ' '
        << tree.search(0.65, 0.55, 0.55)->getLogOdds() << '\n';
    for (const bool in_box : {false, true}) {
        Even<L> even;
        even.setProbHit(0.5);
        typename L::Point low(0.21f, -3, -3), high(3, 3, 3);
        even.setBBXMin(low), even.setBBXMax(high);
        even.useBBXLimit(in_box);
        typename L::Cloud cloud;
        cloud.push_back(1.03f, 0.21f, 0.31f), cloud.push_back(1.53f, 0.71f, 0.33f);
        typename L::Keys free_cells, occupied_cells;
        even.computeUpdate(cloud, {0.01f, 0.02f, 0.03f}, free_cells, occupied_cells, -1);
        out << free_cells.size() << ' ' << occupied_cells.size() << '\n';
        even.insertPointCloud(cloud, {0.01f, 0.02f, 0.03f});
        out << even.search(1.03, 0.21, 0.31)->getLogOdds() << '\n' << classes_of(even);
    }
}

/// Two trees in one stream, and what stands after them; records of messages; a file that is none.
template <class L> void show_streams(std::ostream &out) {
    typename L::Tree first(0.1), second(0.2), none(0.3), read(0.5);
    first.updateNode(0.55, 0.55, 0.55, true), first.updateNode(-0.55, 0.55, 0.55, false);
    second.updateNode(7.3, 0.5, 0.5, true);
    std::stringstream both, records;
    out << first.writeBinary(both) << none.writeBinary(both) << second.writeBinary(both);
    both << "and more";
    for (int i = 0; i < 3; ++i)
        out << read.readBinary(both) << read.getResolution() << ' ' << classes_of(read);
    std::string rest;
    both >> rest;
    out << rest << ' ' << rest.size() << '\n';
    first.writeBinaryData(second.writeBinaryData(records));
    typename L::Tree third(0.2), fourth(0.1);
    fourth.readBinaryData(third.readBinaryData(records));
    out << classes_of(third) << classes_of(fourth) << records.good() << '\n';
}

/// Changed keys, as maps are cleared, swapped, copied and read, and detection goes on and off.
template <class L> void show_changes(std::ostream &out) {
    Even<L> tree, other;
    std::stringstream file;
    other.updateNode(0.75, 0.55, 0.55, true);
    other.writeBinary(file);
    tree.enableChangeDetection(true);
    tree.updateNode(0.55, 0.55, 0.55, true);
    tree.updateNode(0.65, 0.55, 0.55, true);
    tree.enableChangeDetection(false);
    out << changes_of(tree);
    tree.updateNode(0.85, 0.55, 0.55, true);
    out << changes_of(tree);
    tree.enableChangeDetection(true);
    tree.updateNode(0.85, 0.55, 0.55, -3.0f);
    out << changes_of(tree);
    const typename L::Tree copy(tree);
    out << changes_of(copy);
    tree.swapContent(other);
    out << changes_of(tree) << changes_of(other);
    tree.updateNode(0.75, 0.55, 0.55, -5.0f);
    out << changes_of(tree);
    tree.clear();
    out << changes_of(tree);
    tree.updateNode(0.75, 0.55, 0.55, true);
    out << changes_of(tree) << tree.readBinary(file) << changes_of(tree);
    tree.updateNode(0.75, 0.55, 0.55, -5.0f);
    out << changes_of(tree);
    tree.resetChangeDetection();
    tree.updateNode(0.75, 0.55, 0.55, 5.0f);
    out << changes_of(tree);
}

/// Iterators that are made of a tree, nodes and sizes, as the tree is and with voxels alone.
template <class L> void show_iterators(std::ostream &out) {
    Even<L> tree;
    for (unsigned i = 0; i < 64 + 9; ++i)
        tree.updateNode(typename L::Key(static_cast<std::uint16_t>(32768 + i % 4),
                                        static_cast<std::uint16_t>(32768 + i / 4 % 4),
                                        static_cast<std::uint16_t>(32768 + i / 16)),
                        true);
    for (const bool expands : {false, true}) {
        if (expands) tree.expand();
        out << tree.size() << ' ' << tree.calcNumNodes() << ' ' << tree.getNumLeafNodes() << '\n';
        for (const unsigned char depth : {0, 15, 14, 13, 1}) {
            std::size_t leaves = 0, nodes = 0, inner = 0, boxed = 0;
            typename L::Tree::leaf_iterator leaf(&tree, depth);
            for (; leaf != tree.end_leafs(); leaf++) {
                leaves += leaf.getDepth();
                inner += tree.nodeHasChildren(&*leaf);
                out << text_of(leaf.getIndexKey()) << ' ' << leaf->getLogOdds() << '\n';
            }
            typename L::Tree::tree_iterator node(&tree, depth);
            for (; node != tree.end_tree(); node++) nodes += node.getDepth() + 100 * node.isLeaf();
            const typename L::Point low(0.11f, 0.11f, 0.31f), high(0.31f, 0.11f, 0.41f);
            typename L::Tree::leaf_bbx_iterator in_box(&tree, low, high, depth);
            for (; in_box != tree.end_leafs_bbx(); in_box++) boxed += in_box.getDepth();
            out << leaves << ' ' << inner << ' ' << nodes << ' ' << boxed << '\n';
        }
    }
    typename L::Node node, copy;
    node.setLogOdds(0.5f);
    copy.copyData(node);
    const typename L::Node::DataType value = copy.getValue();
    tree.nodeToMaxLikelihood(copy);
    tree.clearKeyRays();
    out << value << ' ' << (copy.getLogOdds() > 3.4f) << '\n';
}

int failed = 0;

void compare(const char *name, void (*mine)(std::ostream &), void (*theirs)(std::ostream &)) {
    std::ostringstream a, b;
    a << std::fixed << std::setprecision(3), b << std::fixed << std::setprecision(3);
    mine(a), theirs(b);
    if (a.str() == b.str() && !a.str().empty()) return;
    failed++;
    std::printf("%s differs:\n", name);
    std::istringstream ours(a.str()), wanted(b.str());
    int told = 0;
    for (std::string x, y; told < 8;) {
        const bool has_x = bool(std::getline(ours, x)), has_y = bool(std::getline(wanted, y));
        if (!has_x && !has_y) break;
        if (x != y || has_x != has_y)
            std::printf("  %s\n  and in the OctoMap library\n  %s\n", has_x ? x.c_str() : "nothing",
                        has_y ? y.c_str() : "nothing"),
                told++;
        if (!has_x) x.clear();
    }
}

} // namespace

int main() {
#define COMPARE(show) compare(#show, show<Mine>, show<Theirs>)
    COMPARE(show_numbers);
    COMPARE(show_clouds);
    COMPARE(show_keys);
    COMPARE(show_ranges);
    COMPARE(show_borders);
    COMPARE(show_models);
    COMPARE(show_streams);
    COMPARE(show_changes);
    COMPARE(show_iterators);
    std::printf("beside: %d failed\n", failed);
    return failed != 0;
}
