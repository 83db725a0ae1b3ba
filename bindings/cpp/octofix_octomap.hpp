// octofix_octomap.hpp: a map of octofix as an octomap::OcTree, and back, value for value, for what
// is made for the OctoMap library's own class: FCL, MoveIt, dynamicEDT3D, octovis, octomap_msgs.
//
//     octomap::OcTree tree(0.1);
//     octofix::to_octomap(world, tree);                // all that is known, and the log-odds
//     octofix::map again = octofix::from_octomap(tree);
//     octofix::map old = octofix::read_ot("old.ot");   // by the OctoMap library's own reader
//
// Numbers are thousandths of log-odds here and floats there. To the tree goes the float that is
// nearest to a number, and back comes the thousandth that is nearest to a float, so that a map
// comes back as it was. A value of a tree within half a thousandth of its threshold may change its
// class.
//
// What no map of octofix can be is told by not_a_map, with a name; a resolution or log-odds that it
// can't have by refused (3 BadResolution, 4 BadModel), as by the map's constructor.
//
// Needs liboctomap (octomap::OcTree of version 1.8 or newer) where it is included.
#ifndef OCTOFIX_OCTOMAP_HPP
#define OCTOFIX_OCTOMAP_HPP

#include "octofix.hpp"

#include <octomap/OcTree.h>

#include <algorithm>
#include <array>
#include <cmath>
#include <limits>
#include <sstream>
#include <string>
#include <utility>

namespace octofix {

/// A tree of the OctoMap library that no map can be. Its name says why: OtherTree (another class
/// than OcTree, as a coloured one), OtherDepth (not of 16 levels), or BadValue (a value that isn't
/// finite, or beyond the tree's own bounds).
class not_a_map : public std::domain_error {
  public:
    not_a_map(const char *name, const std::string &what)
        : std::domain_error(std::string(name) + ": " + what), name_(name) {}
    const char *name() const { return name_; }

  private:
    const char *name_;
};

namespace detail {

constexpr unsigned tree_depth = 16;

/// The log-odds of a tree as they stand in it: its own calls go through probabilities, which aren't
/// exact.
struct tree_odds : octomap::OcTree {
    static odds of(const octomap::OcTree &tree);
    static void put(octomap::OcTree &tree, const odds &numbers);
    /// Widens the bounds, so that these values lie within them.
    static void hold(octomap::OcTree &tree, float low, float high) {
        tree.*(&tree_odds::clamping_thres_min) = std::min(tree.getClampingThresMinLog(), low);
        tree.*(&tree_odds::clamping_thres_max) = std::max(tree.getClampingThresMaxLog(), high);
    }
};

inline float to_float(std::int32_t thousandths) {
    return static_cast<float>(thousandths / 1000.0);
}

/// The nearest thousandth; the largest number there is where that is too far.
inline std::int32_t to_thousandths(float value) {
    constexpr double most = std::numeric_limits<std::int32_t>::max();
    const double thousandths = std::nearbyint(1000.0 * static_cast<double>(value));
    return static_cast<std::int32_t>(std::fmax(-most, std::fmin(most, thousandths)));
}

inline odds tree_odds::of(const octomap::OcTree &tree) {
    return {to_thousandths(tree.getProbHitLog()), to_thousandths(tree.getProbMissLog()),
            to_thousandths(tree.getClampingThresMinLog()),
            to_thousandths(tree.getClampingThresMaxLog()),
            to_thousandths(tree.getOccupancyThresLog())};
}

inline void tree_odds::put(octomap::OcTree &tree, const odds &numbers) {
    tree.*(&tree_odds::prob_hit_log) = to_float(numbers.hit);
    tree.*(&tree_odds::prob_miss_log) = to_float(numbers.miss);
    tree.*(&tree_odds::clamping_thres_min) = to_float(numbers.min);
    tree.*(&tree_odds::clamping_thres_max) = to_float(numbers.max);
    tree.*(&tree_odds::occ_prob_thres_log) = to_float(numbers.thr);
}

/// Gives a tree without nodes a root without children.
inline void plant_root(octomap::OcTree &tree) {
    std::istringstream node(std::string(sizeof(float) + 1, '\0')); // as .ot files have it
    tree.readData(node);
}

/// Puts leaves into a tree that has none, in Morton order: each way down goes on where it parts
/// from the last one.
class planter {
  public:
    explicit planter(octomap::OcTree &tree) : tree_(tree) { way_[0] = tree.getRoot(); }

    void put(const block &leaf) {
        const voxel_key at = low(leaf);
        const unsigned differ = (at.x ^ last_.x) | (at.y ^ last_.y) | (at.z ^ last_.z);
        while (depth_ > 0 && differ >> (tree_depth - depth_) != 0) --depth_;
        for (; depth_ < leaf.depth; ++depth_) way_[depth_ + 1] = child(at);
        way_[depth_]->setLogOdds(to_float(leaf.value));
        last_ = at;
    }

  private:
    octomap::OcTreeNode *child(const voxel_key &at) const {
        const unsigned bit = tree_depth - 1 - depth_;
        const unsigned i = (at.x >> bit & 1) | (at.y >> bit & 1) << 1 | (at.z >> bit & 1) << 2;
        octomap::OcTreeNode *parent = way_[depth_];
        return tree_.nodeChildExists(parent, i) ? tree_.getNodeChild(parent, i)
                                                : tree_.createNodeChild(parent, i);
    }

    octomap::OcTree &tree_;
    std::array<octomap::OcTreeNode *, tree_depth + 1> way_{};
    voxel_key last_{};
    unsigned depth_ = 0;
};

/// Writes a tree as a snapshot, the file of octofix_restore.
class snapshot_writer {
  public:
    explicit snapshot_writer(const octomap::OcTree &tree)
        : tree_(tree), bounds_(tree_odds::of(tree)) {}

    bytes write(std::int64_t res) {
        for (const char letter : {'O', 'C', 'T', 'S', 'N', 'A', 'P', '2'})
            file_.push_back(static_cast<std::uint8_t>(letter));
        put(static_cast<std::uint64_t>(res), 8);
        for (const std::int32_t number :
             {bounds_.hit, bounds_.miss, bounds_.min, bounds_.max, bounds_.thr})
            put(static_cast<std::uint32_t>(number), 4);
        file_.push_back(0); // no box of a limit
        put_node(tree_.getRoot(), 0);
        return std::move(file_);
    }

  private:
    static constexpr std::size_t leaf_length = 5;

    void put(std::uint64_t number, int length) {
        while (length-- > 0) file_.push_back(static_cast<std::uint8_t>(number >> 8 * length));
    }

    void put_node(const octomap::OcTreeNode *node, unsigned depth) {
        if (node == nullptr) return file_.push_back(0);
        if (!tree_.nodeHasChildren(node)) return put_leaf(node->getLogOdds());
        if (depth == tree_depth)
            throw not_a_map("OtherDepth", "a node has children below the depth of 16");
        const std::size_t start = file_.size();
        file_.push_back(2);
        for (unsigned i = 0; i < 8; ++i)
            put_node(tree_.nodeChildExists(node, i) ? tree_.getNodeChild(node, i) : nullptr,
                     depth + 1);
        join(start);
    }

    void put_leaf(float value) {
        const bool is_within = value >= tree_.getClampingThresMinLog() &&
                               value <= tree_.getClampingThresMaxLog();
        if (!is_within || !std::isfinite(value))
            throw not_a_map("BadValue", "a node's log-odds are " + std::to_string(value));
        file_.push_back(1);
        put(static_cast<std::uint32_t>(to_thousandths(value)), 4);
    }

    /// Eight leaves of one value are one leaf: the node of a block that could be pruned.
    void join(std::size_t start) {
        const std::uint8_t *first = file_.data() + start + 1, *end = file_.data() + file_.size();
        if (file_.size() != start + 1 + 8 * leaf_length || *first != 1) return;
        if (!std::equal(first + leaf_length, end, first)) return;
        std::copy_n(first, leaf_length, file_.data() + start);
        file_.resize(start + leaf_length);
    }

    const octomap::OcTree &tree_;
    const odds bounds_;
    bytes file_;
};

/// What the header of a .ot file says.
struct ot_header {
    std::string id, res;
    bool has_nodes = true;
};

[[noreturn]] inline void refuse_file(std::uint32_t code, std::uint64_t first = 0) {
    throw refused(code, details{first, 0});
}

/// Reads the header, word by word as the OctoMap library does, up to the end of its line of data.
inline ot_header read_ot_header(std::istream &in) {
    constexpr std::uint64_t no_id = 0, no_res = 1, no_data = 3;
    const std::string first = "# Octomap OcTree file";
    ot_header header;
    std::string line, word;
    if (!std::getline(in, line) || line.compare(0, first.size(), first) != 0)
        refuse_file(OCTOFIX_NOT_OCTOMAP);
    while (in >> word && word != "data") {
        if (word == "id") in >> header.id;
        else if (word == "res") in >> header.res;
        else if (word == "size") in >> word, header.has_nodes = word != "0";
        else std::getline(in, line); // a comment, or a field that nobody needs
    }
    if (!std::getline(in, line)) refuse_file(OCTOFIX_MISSING_FIELD, no_data);
    if (header.id.empty()) refuse_file(OCTOFIX_MISSING_FIELD, no_id);
    if (header.id != "OcTree") refuse_file(OCTOFIX_WRONG_ID);
    if (header.res.empty()) refuse_file(OCTOFIX_MISSING_FIELD, no_res);
    return header;
}

/// Goes over the nodes of .ot data: each a float, a byte of children, and these. The OctoMap
/// library's reader goes by what it has read, also where nothing came, and has to be given whole
/// ones.
class ot_nodes {
  public:
    ot_nodes(std::istream &in, std::uint64_t at) : in_(in), at_(at) {}

    /// Expects the nodes of a block of this depth; where they end.
    std::uint64_t pass(unsigned depth = 0) {
        char node[node_length];
        in_.read(node, node_length);
        if (in_.gcount() != node_length)
            refuse_file(OCTOFIX_TRUNCATED, at_ + static_cast<std::uint64_t>(in_.gcount()));
        const auto children = static_cast<std::uint8_t>(node[node_length - 1]);
        if (children != 0 && depth == tree_depth) refuse_file(OCTOFIX_TOO_DEEP, at_);
        at_ += node_length;
        for (unsigned i = 0; i < 8; ++i)
            if ((children >> i & 1) != 0) pass(depth + 1);
        return at_;
    }

  private:
    static constexpr std::streamsize node_length = sizeof(float) + 1;
    std::istream &in_;
    std::uint64_t at_;
};

/// Whether whole nodes stand in a stream from its place on, and nothing behind them: else it
/// throws. The stream stays at its place.
inline void expect_nodes(std::istream &in) {
    const std::istream::pos_type start = in.tellg();
    const std::uint64_t end = ot_nodes(in, static_cast<std::uint64_t>(start)).pass();
    if (in.peek() != std::char_traits<char>::eof()) refuse_file(OCTOFIX_TRAILING_BYTES, end);
    in.clear();
    in.seekg(start);
}

/// The values of all leaves, from the least to the greatest; 0 and 0 where there are none.
inline std::pair<float, float> extremes(const octomap::OcTree &tree) {
    float low = 0, high = 0;
    for (auto it = tree.begin_leafs(), end = tree.end_leafs(); it != end; ++it) {
        low = std::min(low, it->getLogOdds());
        high = std::max(high, it->getLogOdds());
    }
    return {low, high};
}

} // namespace detail

/// Makes a tree that of a map: its known values, its resolution and its log-odds, in place of what
/// the tree had. Inner nodes have the greatest value below them, as after updateInnerOccupancy.
inline void to_octomap(const map &from, octomap::OcTree &tree) {
    const settings now = from.settings();
    const std::vector<block> leaves = from.leaves();
    tree.clear();
    tree.setResolution(static_cast<double>(now.res) / 1e9);
    detail::tree_odds::put(tree, now.odds);
    if (leaves.empty()) return;
    detail::plant_root(tree);
    detail::planter planter(tree);
    for (const block &leaf : leaves) planter.put(leaf);
    tree.updateInnerOccupancy();
}

/// The map of a tree: its leaves' values, its resolution to the nanometre, and its log-odds to the
/// thousandth. Throws not_a_map and refused.
inline map from_octomap(const octomap::AbstractOcTree &tree,
                        const limits &most = default_limits) {
    const auto *plain = dynamic_cast<const octomap::OcTree *>(&tree);
    if (plain == nullptr || tree.getTreeType() != "OcTree")
        throw not_a_map("OtherTree", "a tree of the class " + tree.getTreeType());
    if (plain->getTreeDepth() != detail::tree_depth)
        throw not_a_map("OtherDepth",
                        "a tree of the depth " + std::to_string(plain->getTreeDepth()));
    map made(plain->getResolution(), detail::tree_odds::of(*plain), most);
    made.restore(detail::snapshot_writer(*plain).write(made.settings().res));
    return made;
}

namespace detail {

/// The map of a .ot file's bytes.
inline map read_ot_bytes(const bytes &content, const limits &most) {
    std::istringstream in(std::string(content.begin(), content.end()));
    const ot_header header = read_ot_header(in);
    const double res = number_of(header.res);
    if (!(res > 0)) refuse_file(OCTOFIX_BAD_FIELD, 1);
    octomap::OcTree tree(res);
    if (header.has_nodes) {
        expect_nodes(in);
        tree.readData(in);
        const auto [low, high] = extremes(tree);
        tree_odds::hold(tree, low, high);
    }
    return from_octomap(tree, most);
}

} // namespace detail

/// The map of a .ot file, whose nodes the OctoMap library reads. Such a file says nothing of
/// log-odds: they are that library's defaults, with bounds so wide that the values lie within.
/// The stream is read to its end, and may be a pipe. Throws refused for what isn't such a file
/// (10 NotOctomap, 12 WrongId, 13 MissingField, 14 BadField, 16 TooDeep, 17 Truncated,
/// 18 TrailingBytes), and what from_octomap throws; std::ios_base::failure where it can't be read.
inline map read_ot(std::istream &in, const limits &most = default_limits) {
    const auto content = detail::rest_of(in, std::numeric_limits<std::size_t>::max());
    if (!content) throw std::ios_base::failure("a .ot file can't be read");
    return detail::read_ot_bytes(*content, most);
}

/// The same of a file. Throws std::filesystem::filesystem_error where it can't be read.
inline map read_ot(const std::filesystem::path &path, const limits &most = default_limits) {
    return detail::read_ot_bytes(detail::read_file(path), most);
}

} // namespace octofix

#endif
