// Nodes as the OctoMap library has them, of a copy of a map's values: the tree itself can't be had.
// Part of octofix_octree.hpp.
#ifndef OCTOFIX_OCTREE_NODES_HPP
#define OCTOFIX_OCTREE_NODES_HPP

#include "../octofix.hpp"
#include "octree_keys.hpp"

#include <array>
#include <cmath>
#include <cstddef>
#include <cstdint>
#include <deque>
#include <ostream>
#include <stdexcept>
#include <string>
#include <utility>
#include <vector>

namespace octofix {

class OcTreeContent;

namespace detail {

/// Log-odds in thousandths, as far as an edit takes them. What is no number is refused.
inline std::int32_t thousandths(float logodds) {
    if (std::isnan(logodds)) throw refused(OCTOFIX_BAD_ARGUMENT);
    const double held = std::fmax(-1000.0, std::fmin(1000.0, logodds));
    return static_cast<std::int32_t>(std::lrint(held * 1000));
}
inline float in_log_odds(std::int32_t thousandths) {
    return static_cast<float>(thousandths) / 1000.0f;
}

} // namespace detail

/// A method of the OctoMap library that can't be had here.
class unsupported : public std::logic_error {
  public:
    explicit unsupported(const std::string &method)
        : std::logic_error("octofix::OcTree has no " + method) {}
};

/// A block and what is known of it. It is a copy: a new value is an edit of the map, which this
/// node shows too, and others don't.
class OcTreeNode {
  public:
    using DataType = float;

    float getLogOdds() const { return detail::in_log_odds(value_); }
    float getValue() const { return getLogOdds(); }
    double getOccupancy() const { return probability(getLogOdds()); }
    inline void setLogOdds(float logodds);
    void setValue(float logodds) { setLogOdds(logodds); }
    void addValue(float logodds) { setLogOdds(getLogOdds() + logodds); }
    void copyData(const OcTreeNode &other) { setLogOdds(other.getLogOdds()); }
    inline bool hasChildren() const;
    bool operator==(const OcTreeNode &other) const { return value_ == other.value_; }

  private:
    friend class OcTreeContent;
    friend class OcTreeOccupancy;
    friend class OcTreeValues;
    friend class OcTreePlace;

    OcTreeContent *content_ = nullptr; // that an edit of it changes; none of one made by itself
    std::array<OcTreeNode, 8> *children_ = nullptr;
    std::int32_t value_ = 0; // in thousandths: the largest one in the block
    OcTreeKey low_;
    std::uint8_t depth_ = 0;
    bool is_known_ = false;
    bool is_leaf_ = false; // has no children, whatever the map has
};

namespace detail {

/// The nodes that a thread was lent. Each stays while at least so many more are lent.
class lent_nodes {
  public:
    OcTreeNode *keep(const OcTreeNode &node) {
        if (last_.size() == last_.capacity()) {
            before_ = std::move(last_);
            last_ = {};
            last_.reserve(at_least);
        }
        return &last_.emplace_back(node);
    }

  private:
    static constexpr std::size_t at_least = 4096;
    std::vector<OcTreeNode> before_, last_;
};

} // namespace detail

/// The values of a map as a tree that stands still.
class OcTreeValues {
  public:
    /// Of leaves in Morton order. Where voxels alone are wanted, each leaf is parted into them.
    OcTreeValues(OcTreeContent *content, view<block> leaves, bool voxels_alone)
        : voxels_alone_(voxels_alone) {
        root_.content_ = content;
        const block *next = leaves.data();
        if (!leaves.empty()) grow(root_, next, next + leaves.size());
    }
    OcTreeValues(const OcTreeValues &) = delete;
    OcTreeValues &operator=(const OcTreeValues &) = delete;

    OcTreeNode *root() { return known(root_); }
    std::size_t size() const { return size_; }
    std::size_t leaf_count() const { return leaf_count_; }

    /// The node of a block, or the leaf over it; none where nothing is known.
    OcTreeNode *find(const OcTreeKey &key, unsigned depth) {
        OcTreeNode *node = root();
        while (node && node->depth_ < depth && node->children_)
            node = known((*node->children_)[computeChildIdx(key, 15 - node->depth_)]);
        return node;
    }
    static OcTreeNode *known(OcTreeNode &node) { return node.is_known_ ? &node : nullptr; }
    /// Writes the nodes as .ot files have them: each a float, a byte of children, and these.
    void write(std::ostream &out) {
        if (const OcTreeNode *node = root()) write_node(out, *node);
    }

  private:
    static void write_node(std::ostream &out, const OcTreeNode &node) {
        detail::put_number(out, node.getLogOdds());
        unsigned known = 0;
        for (unsigned i = 0; node.children_ && i < 8; ++i)
            known |= (*node.children_)[i].is_known_ ? 1u << i : 0u;
        out.put(static_cast<char>(known));
        for (unsigned i = 0; i < 8; ++i)
            if ((known >> i & 1) != 0) write_node(out, (*node.children_)[i]);
    }
    static bool is_within(const block &leaf, const OcTreeNode &node) {
        const voxel_key first = low(leaf);
        const OcTreeKey there(first.x, first.y, first.z);
        return computeIndexKey(static_cast<key_type>(16 - node.depth_), there) == node.low_;
    }
    /// Eight unknown children.
    std::array<OcTreeNode, 8> &split(OcTreeNode &node) {
        std::array<OcTreeNode, 8> &children = groups_.emplace_back();
        node.children_ = &children;
        const unsigned half = 1u << (15 - node.depth_);
        for (unsigned i = 0; i < 8; ++i) {
            children[i].content_ = node.content_;
            children[i].depth_ = static_cast<std::uint8_t>(node.depth_ + 1);
            for (unsigned axis = 0; axis < 3; ++axis)
                children[i].low_[axis] = static_cast<key_type>(
                    node.low_[axis] + ((i >> axis & 1) != 0 ? half : 0));
        }
        return children;
    }
    void become_leaf(OcTreeNode &node, std::int32_t value) {
        node.value_ = value;
        node.is_known_ = true;
        ++size_;
        if (voxels_alone_ && node.depth_ < 16)
            for (OcTreeNode &child : split(node)) become_leaf(child, value);
        else
            ++leaf_count_;
    }
    /// A node of known space, from the leaves that lie in its block, which are taken.
    void grow(OcTreeNode &node, const block *&next, const block *end) {
        if (next->depth == node.depth_) return become_leaf(node, next++->value);
        node.is_known_ = true;
        ++size_;
        bool is_first = true;
        for (OcTreeNode &child : split(node)) {
            if (next == end || !is_within(*next, child)) continue;
            grow(child, next, end);
            if (is_first || child.value_ > node.value_) node.value_ = child.value_;
            is_first = false;
        }
    }

    OcTreeNode root_;
    std::deque<std::array<OcTreeNode, 8>> groups_;
    std::size_t size_ = 0, leaf_count_ = 0;
    bool voxels_alone_;
};

} // namespace octofix

#endif
