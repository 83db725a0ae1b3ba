// Iterators over the nodes of a map, as the OctoMap library has them. Each keeps the map's leaves
// as they were when it was made, so that edits don't disturb it. Part of octofix_octree.hpp.
#ifndef OCTOFIX_OCTREE_ITERATORS_HPP
#define OCTOFIX_OCTREE_ITERATORS_HPP

#include "octree_leaves.hpp"
#include "octree_nodes.hpp"

#include <algorithm>
#include <cstddef>
#include <cstdint>
#include <iterator>
#include <memory>
#include <vector>

namespace octofix {

class OcTreeBase;

/// Where an iterator stands: at a node, which it has for itself. The node is good until the
/// iterator moves.
class OcTreePlace {
  public:
    using iterator_category = std::input_iterator_tag;
    using value_type = OcTreeNode;
    using difference_type = std::ptrdiff_t;
    using pointer = OcTreeNode *;
    using reference = OcTreeNode &;

    OcTreeNode &operator*() const & { return node_; }
    /// Of an iterator that goes away, as that of `*it++`.
    OcTreeNode operator*() const && { return node_; }
    OcTreeNode *operator->() const { return &node_; }

    unsigned getDepth() const { return node_.depth_; }
    double getSize() const { return grid_.getNodeSize(getDepth()); }
    /// The key in the middle of the block.
    OcTreeKey getKey() const {
        if (getDepth() == 0) return {32768, 32768, 32768};
        return grid_.adjustKeyAtDepth(getIndexKey(), getDepth());
    }
    /// The lowest key of the block.
    OcTreeKey getIndexKey() const { return node_.low_; }
    point3d getCoordinate() const { return grid_.keyToCoord(getIndexKey(), getDepth()); }
    double getX() const { return grid_.keyToCoord(getIndexKey()[0], getDepth()); }
    double getY() const { return grid_.keyToCoord(getIndexKey()[1], getDepth()); }
    double getZ() const { return grid_.keyToCoord(getIndexKey()[2], getDepth()); }

  protected:
    OcTreePlace() : grid_(1) {}
    OcTreePlace(const OcTreeGrid &grid, unsigned depth)
        : grid_(grid), max_depth_(detail::walk_depth_of(depth)) {}
    void stand(OcTreeContent *content, const OcTreeKey &first, unsigned depth,
               std::int32_t value) {
        node_.content_ = content;
        node_.low_ = first;
        node_.depth_ = static_cast<std::uint8_t>(depth);
        node_.value_ = value;
        node_.is_known_ = true;
    }
    void tell_leaf(bool is_leaf) { node_.is_leaf_ = is_leaf; }
    void stand_on(const OcTreeNode &node) { node_ = node; }
    unsigned max_depth() const { return max_depth_; }
    static std::array<OcTreeNode, 8> *children_of(const OcTreeNode &node) { return node.children_; }
    static bool is_known(const OcTreeNode &node) { return node.is_known_; }

  private:
    OcTreeGrid grid_;
    unsigned max_depth_ = 16;
    mutable OcTreeNode node_;
};

/// Over the leaves, and the inner nodes of the greatest depth that is wanted.
class OcTreeLeafIterator : public OcTreePlace {
  public:
    OcTreeLeafIterator() = default;
    OcTreeLeafIterator(const OcTreeGrid &grid, std::shared_ptr<const OcTreeLeaves> leaves,
                       unsigned depth)
        : OcTreeLeafIterator(grid, std::move(leaves), depth, {0, 0, 0}, {65535, 65535, 65535}) {}
    inline explicit OcTreeLeafIterator(const OcTreeBase *tree, unsigned char depth = 0);

    OcTreeLeafIterator &operator++() {
        go_on();
        return *this;
    }
    OcTreeLeafIterator operator++(int) {
        OcTreeLeafIterator before = *this;
        go_on();
        return before;
    }
    bool operator==(const OcTreeLeafIterator &other) const {
        if (is_end() || other.is_end()) return is_end() == other.is_end();
        return leaves_ == other.leaves_ && at_ == other.at_ && part_ == other.part_;
    }
    bool operator!=(const OcTreeLeafIterator &other) const { return !(*this == other); }

  protected:
    /// Those that meet a box of keys.
    OcTreeLeafIterator(const OcTreeGrid &grid, std::shared_ptr<const OcTreeLeaves> leaves,
                       unsigned depth, const OcTreeKey &first, const OcTreeKey &last)
        : OcTreePlace(grid, depth), leaves_(std::move(leaves)), first_(first), last_(last) {
        settle();
    }
    void go_on() {
        at_ = next_;
        part_ = next_part_;
        settle();
    }

  private:
    static OcTreeKey low_of(const block &leaf) {
        const voxel_key first = low(leaf);
        return {first.x, first.y, first.z};
    }
    bool is_end() const { return !leaves_ || at_ == leaves_->blocks().size(); }
    const block &leaf() const { return leaves_->blocks()[at_]; }
    bool meets_box(const OcTreeKey &first, unsigned depth) const {
        const unsigned last = (1u << (16 - depth)) - 1;
        for (unsigned axis = 0; axis < 3; ++axis)
            if (first[axis] > last_[axis] || first[axis] + last < first_[axis]) return false;
        return true;
    }
    /// Stands at the first node, from this leaf and part of it on, that meets the box. The leaves
    /// are those that do; only of a leaf that is parted not all parts may.
    void settle() {
        if (is_end()) return;
        if (leaf().depth > max_depth() || leaves_->are_voxels_alone()) return settle_by_depth();
        next_ = at_ + 1;
        stand_on_leaf(low_of(leaf()), leaf().depth);
    }
    /// The same where leaves are parted or put together. (That of most leaves is to be inlined.)
    [[gnu::noinline]] void settle_by_depth() {
        for (; !is_end(); at_ = next_, part_ = next_part_) {
            next_ = at_ + 1, next_part_ = 0;
            if (leaf().depth > max_depth())
                stand_on_block();
            else if (leaf().depth < max_depth() && leaves_->are_voxels_alone())
                stand_on_part();
            else
                stand_on_leaf(low_of(leaf()), leaf().depth);
            if (!is_past_parts_) return;
        }
    }
    void stand_on_leaf(const OcTreeKey &first, unsigned depth) {
        stand(leaves_->content(), first, depth, leaf().value);
        tell_leaf(!leaves_->are_voxels_alone() || depth == 16);
        is_past_parts_ = false;
    }
    /// The leaves that lie in one block of the greatest depth, as one node.
    void stand_on_block() {
        const auto level = static_cast<key_type>(16 - max_depth());
        const OcTreeKey first = computeIndexKey(level, low_of(leaf()));
        const view<block> blocks = leaves_->blocks();
        std::int32_t largest = leaf().value;
        for (; next_ < blocks.size(); ++next_) {
            if (computeIndexKey(level, low_of(blocks[next_])) != first) break;
            largest = std::max(largest, blocks[next_].value);
        }
        stand(leaves_->content(), first, max_depth(), largest);
        tell_leaf(false);
        is_past_parts_ = false;
    }
    /// The first part of the leaf, from this one on, that meets the box.
    void stand_on_part() {
        const unsigned levels = max_depth() - leaf().depth;
        const std::uint64_t parts = std::uint64_t{1} << 3 * levels;
        while (part_ < parts) {
            unsigned up = 0;
            while (up < levels && part_ % (std::uint64_t{8} << 3 * up) == 0) ++up;
            while (up > 0 && meets_box(part_low(), max_depth() - up)) --up;
            if (meets_box(part_low(), max_depth() - up)) break;
            part_ += std::uint64_t{1} << 3 * up;
        }
        is_past_parts_ = part_ >= parts;
        if (is_past_parts_) return;
        stand_on_leaf(part_low(), max_depth());
        if (part_ + 1 < parts) next_ = at_, next_part_ = part_ + 1;
    }
    /// The lowest key of the part.
    OcTreeKey part_low() const {
        OcTreeKey key = low_of(leaf());
        for (unsigned bit = 0; part_ >> 3 * bit != 0; ++bit)
            for (unsigned axis = 0; axis < 3; ++axis)
                if ((part_ >> (3 * bit + axis) & 1) != 0)
                    key[axis] = static_cast<key_type>(key[axis] + (1u << (16 - max_depth() + bit)));
        return key;
    }

    std::shared_ptr<const OcTreeLeaves> leaves_;
    OcTreeKey first_, last_;
    std::size_t at_ = 0, next_ = 0;          // leaves
    std::uint64_t part_ = 0, next_part_ = 0; // of a leaf that is parted
    bool is_past_parts_ = false;
};

/// Over those that meet a box of keys.
class OcTreeLeafBoxIterator : public OcTreeLeafIterator {
  public:
    OcTreeLeafBoxIterator() = default;
    OcTreeLeafBoxIterator(const OcTreeGrid &grid, std::shared_ptr<const OcTreeLeaves> leaves,
                          unsigned depth, const OcTreeKey &first, const OcTreeKey &last)
        : OcTreeLeafIterator(grid, std::move(leaves), depth, first, last) {}
    inline OcTreeLeafBoxIterator(const OcTreeBase *tree, const OcTreeKey &min, const OcTreeKey &max,
                                 unsigned char depth = 0);
    inline OcTreeLeafBoxIterator(const OcTreeBase *tree, const point3d &min, const point3d &max,
                                 unsigned char depth = 0);
    OcTreeLeafBoxIterator &operator++() {
        go_on();
        return *this;
    }
    OcTreeLeafBoxIterator operator++(int) {
        OcTreeLeafBoxIterator before = *this;
        go_on();
        return before;
    }
};

/// Over all nodes, each before its children. It keeps a copy of them, with whose nodes it stands.
class OcTreeNodeIterator : public OcTreePlace {
  public:
    using iterator_category = std::forward_iterator_tag;

    OcTreeNodeIterator() = default;
    OcTreeNodeIterator(const OcTreeGrid &grid, std::shared_ptr<OcTreeValues> values,
                       unsigned depth)
        : OcTreePlace(grid, depth), values_(std::move(values)) {
        if (values_->root()) to_come_.push_back(values_->root());
        settle();
    }
    inline explicit OcTreeNodeIterator(const OcTreeBase *tree, unsigned char depth = 0);

    OcTreeNode &operator*() const { return *to_come_.back(); }
    OcTreeNode *operator->() const { return to_come_.back(); }
    bool operator==(const OcTreeNodeIterator &other) const { return to_come_ == other.to_come_; }
    bool operator!=(const OcTreeNodeIterator &other) const { return !(*this == other); }
    OcTreeNodeIterator &operator++() {
        std::array<OcTreeNode, 8> *children = isLeaf() ? nullptr : children_of(**this);
        to_come_.pop_back();
        if (children)
            for (auto child = children->rbegin(); child != children->rend(); ++child)
                if (is_known(*child)) to_come_.push_back(&*child);
        settle();
        return *this;
    }
    OcTreeNodeIterator operator++(int) {
        OcTreeNodeIterator before = *this;
        ++*this;
        return before;
    }
    bool isLeaf() const { return getDepth() >= max_depth() || !children_of(**this); }

  private:
    void settle() {
        if (!to_come_.empty()) stand_on(*to_come_.back());
    }

    std::shared_ptr<OcTreeValues> values_;
    std::vector<OcTreeNode *> to_come_; // the next one last
};

} // namespace octofix

#endif
