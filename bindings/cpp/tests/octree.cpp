// What the class for OctoMap programs does at its edges: iterators that go away, depths that no
// block has, boxes beyond the map, and threads with small stacks.
#include <octofix_octree.hpp>

#include <cstdio>
#include <iterator>
#include <type_traits>

#include <pthread.h>

namespace {

int failed = 0;

void expect(int line, bool holds) {
    if (holds) return;
    failed++;
    std::printf("line %d doesn't hold\n", line);
}

#define EXPECT(what) expect(__LINE__, what)

using octofix::OcTree;
using octofix::OcTreeKey;
using octofix::point3d;

/// The code that a call is refused with, or 0.
template <class Call> std::uint32_t code_of(Call call) {
    try {
        call();
    } catch (const octofix::refused &error) {
        return error.code();
    }
    return 0;
}

template <class Iterator>
using category = typename std::iterator_traits<Iterator>::iterator_category;

// A leaf iterator has its node for itself, so that none may be kept of one that goes away.
static_assert(std::is_same_v<category<OcTree::leaf_iterator>, std::input_iterator_tag>);
static_assert(std::is_same_v<category<OcTree::leaf_bbx_iterator>, std::input_iterator_tag>);
static_assert(std::is_same_v<decltype(*std::declval<OcTree::leaf_iterator &>()),
                             octofix::OcTreeNode &>);
static_assert(!std::is_reference_v<decltype(*std::declval<OcTree::leaf_iterator &>()++)>);

void try_iterators() {
    OcTree tree(0.1);
    for (const std::uint16_t x : {0, 1000, 2000})
        tree.setNodeValue(OcTreeKey(x, 0, 0), 0.001f * static_cast<float>(x));
    auto leaf = tree.begin_leafs();
    const auto &first = *leaf++;
    const auto &second = *leaf++;
    EXPECT(first.getLogOdds() == 0.0f && second.getLogOdds() == 1.0f);
    EXPECT(leaf->getLogOdds() == 2.0f && leaf++ != tree.end_leafs() && leaf == tree.end_leafs());
    auto node = tree.begin_tree(); // (whose nodes are those of a copy that is kept)
    auto &root = *node++;
    EXPECT(root.getLogOdds() == 2.0f && &root == tree.getRoot());
}

/// Depths below voxels are refused where the OctoMap library ends the program, and are that of
/// voxels where it takes them so.
void try_depths() {
    OcTree tree(0.1);
    const OcTreeKey key(32768, 32768, 32768);
    tree.updateNode(key, true);
    octofix::point3d_list centers;
    const auto is_refused = [](auto call) { return code_of(call) == OCTOFIX_BAD_DEPTH; };
    for (const unsigned depth : {17u, 32u, 255u, 4294967295u}) {
        EXPECT(is_refused([&] { tree.search(key, depth); }));
        EXPECT(is_refused([&] { tree.search(0, 0, 0, depth); }));
        EXPECT(is_refused([&] { tree.deleteNode(key, depth); }));
        EXPECT(is_refused([&] { tree.getNodeSize(depth); }));
        EXPECT(is_refused([&] { tree.adjustKeyAtDepth(key, depth); }));
        EXPECT(is_refused([&] { tree.coordToKey(0.0, depth); }));
        EXPECT(is_refused([&] { tree.keyToCoord(key, depth); }));
        EXPECT(is_refused([&] { tree.getUnknownLeafCenters(centers, {}, {1, 1, 1}, depth); }));
    }
    for (const unsigned char depth : {16, 17, 200}) {
        EXPECT(tree.begin_leafs(depth) != tree.end_leafs());
        EXPECT(tree.begin_leafs(depth).getDepth() == 16);
        EXPECT(tree.begin_leafs_bbx(key, key, depth).getDepth() == 16);
        std::size_t nodes = 0;
        for (auto it = tree.begin_tree(depth); it != tree.end_tree(); ++it) ++nodes;
        EXPECT(nodes == 17);
    }
    EXPECT(octofix::computeIndexKey(16, key) == OcTreeKey(0, 0, 0));
    EXPECT(octofix::computeIndexKey(40, key) == OcTreeKey(0, 0, 0));
    EXPECT(octofix::computeChildIdx(key, 40) == 0 && octofix::computeChildIdx(key, -1) == 0);
}

/// Boxes whose low corner lies above the high one have nothing.
void try_empty_boxes() {
    OcTree tree(0.1);
    tree.updateNode(OcTreeKey(32768, 32768, 32768), true);
    octofix::point3d_list centers;
    tree.getUnknownLeafCenters(centers, {1, 1, 1}, {-1, -1, -1});
    tree.getUnknownLeafCenters(centers, {1, -1, -1}, {-1, 1, 1}, 12);
    EXPECT(centers.empty());
    EXPECT(tree.begin_leafs_bbx(point3d(1, 1, 1), point3d(-1, -1, -1)) == tree.end_leafs_bbx());
}

/// The numbers of voxels that a beam of 20 m along x frees and hits in a box from one x to another.
std::pair<std::size_t, std::size_t> update_in(float low, float high, bool does_scan) {
    OcTree tree(0.1);
    tree.setBBXMin({low, -9000, -9000}), tree.setBBXMax({high, 9000, 9000});
    tree.useBBXLimit(true);
    octofix::Pointcloud cloud;
    cloud.push_back(20.05f, 0.05f, 0.05f);
    octofix::KeySet free_cells, occupied_cells;
    tree.computeUpdate(cloud, {0.05f, 0.05f, 0.05f}, free_cells, occupied_cells, -1);
    if (!does_scan) return {free_cells.size(), occupied_cells.size()};
    tree.insertPointCloud(cloud, {0.05f, 0.05f, 0.05f});
    std::size_t counts[2] = {0, 0};
    for (const octofix::voxel &it : tree.exact_map().known_voxels())
        ++counts[tree.exact_map().is_occupied(it.value)];
    return {counts[0], counts[1]};
}

/// A corner beyond the map is at its border; keys by hand: the beam frees the voxels 0 to 199.
void try_boxes_beyond_the_map() {
    using counts = std::pair<std::size_t, std::size_t>;
    for (const bool does_scan : {false, true}) {
        EXPECT((update_in(-9000, 9000, does_scan) == counts{200, 1}));
        EXPECT((update_in(-9000, 1e30f, does_scan) == counts{200, 1}));
        EXPECT((update_in(5.05f, 9000, does_scan) == counts{150, 1}));
        EXPECT((update_in(8000, 9000, does_scan) == counts{0, 0}));
        EXPECT((update_in(-9000, -8000, does_scan) == counts{0, 0}));
    }
    OcTree tree(0.1);
    tree.setBBXMin({8000, -9000, -9000}), tree.setBBXMax({9000, 9000, 9000});
    EXPECT(!tree.inBBX(OcTreeKey(65535, 0, 0)) && !tree.inBBX(OcTreeKey(0, 0, 0)));
}

/// A thread of 64 kilobytes finds as much room as it needs.
void try_small_stacks() {
    OcTree tree(0.1);
    tree.updateNode(OcTreeKey(32768, 32768, 32768), true);
    pthread_attr_t small;
    EXPECT(pthread_attr_init(&small) == 0 && pthread_attr_setstacksize(&small, 1 << 16) == 0);
    pthread_t thread;
    const auto ask = [](void *it) -> void * {
        return static_cast<OcTree *>(it)->search(OcTreeKey(32768, 32768, 32768)) ? it : nullptr;
    };
    void *answer = nullptr;
    const int code = pthread_create(&thread, &small, ask, &tree);
    EXPECT(code == 0);
    if (code == 0) EXPECT(pthread_join(thread, &answer) == 0 && answer == &tree);
    pthread_attr_destroy(&small);
}

/// A node stays while 4,095 more are asked for, though its tree is edited.
void try_nodes() {
    OcTree tree(0.1);
    const OcTreeKey key(32768, 32768, 32768);
    const octofix::OcTreeNode *first = tree.setNodeValue(key, 0.5f);
    for (int i = 0; i < 4095; ++i) tree.setNodeValue(OcTreeKey(0, 0, 0), -0.5f);
    EXPECT(first->getLogOdds() == 0.5f && !first->hasChildren());
    OcTree other(tree);
    other = tree;
    other.search(key)->setLogOdds(1.5f); // an edit of this tree alone
    EXPECT(other.search(key)->getLogOdds() == 1.5f && tree.search(key)->getLogOdds() == 0.5f);
}

} // namespace

int main() {
    try_iterators();
    try_depths();
    try_empty_boxes();
    try_boxes_beyond_the_map();
    try_small_stacks();
    try_nodes();
    std::printf("octree: %d failed\n", failed);
    return failed != 0;
}
