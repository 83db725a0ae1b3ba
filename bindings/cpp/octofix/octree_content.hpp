// What a tree holds: the map, what its values are bounded by, what has changed, and copies of all
// that as it is now. Part of octofix_octree.hpp.
#ifndef OCTOFIX_OCTREE_CONTENT_HPP
#define OCTOFIX_OCTREE_CONTENT_HPP

#include "../octofix.hpp"
#include "octree_files.hpp"
#include "octree_keys.hpp"
#include "octree_leaves.hpp"
#include "octree_nodes.hpp"

#include <algorithm>
#include <cstddef>
#include <cstdint>
#include <memory>
#include <mutex>
#include <optional>
#include <utility>

namespace octofix {

/// A tree has one for its life, to which its nodes and iterators lead. Calls that ask may run side
/// by side: they fill the copies under a lock.
class OcTreeContent : public OcTreeGrid {
  public:
    OcTreeContent(std::int64_t edge, const odds &bounds)
        : OcTreeGrid(edge), bounds_(bounds), map_(getResolution(), bounds, most_) {}
    OcTreeContent(const OcTreeContent &) = delete;
    OcTreeContent &operator=(const OcTreeContent &) = delete;

    std::unique_ptr<OcTreeContent> copy() {
        auto other = std::make_unique<OcTreeContent>(edge(), bounds_);
        other->map_ = map_.copy();
        other->is_expanded_ = is_expanded_;
        other->kept_ = kept_;
        other->is_tracking_ = is_tracking_;
        return other;
    }
    const OcTreeGrid &grid() const { return *this; }
    const map &exact_map() const { return map_; }
    const odds &bounds() const { return bounds_; }

    // Edits.

    void edit_voxel(const OcTreeKey &key, event what, std::int32_t number, bool lazy) {
        change([&](map &it) { it.edit(middle_of(key), what, number, lazy); });
    }
    void edit_block(const OcTreeKey &key, unsigned depth, event what, std::int32_t number) {
        const unsigned level = detail::depth_of_voxels - detail::depth_of(depth);
        const OcTreeKey low = computeIndexKey(static_cast<key_type>(level), key);
        const OcTreeKey high = detail::last_key(low, level);
        change([&](map &it) { it.edit_box(middle_of(low), middle_of(high), what, number); });
    }
    /// Does something to the map.
    template <class Work> void change(Work work) {
        edited();
        work(map_);
    }
    void expand() {
        is_expanded_ = true;
        edited();
    }
    void prune() {
        is_expanded_ = false;
        change([](map &it) { it.prune(); });
    }
    void clear() {
        keep_changes();
        map_.clear();
        renew_mark();
    }
    /// The same blocks in a map of another edge, with other bounds.
    void rebuild(std::int64_t edge, const odds &bounds) {
        OcTreeContent other(edge, bounds);
        for (const block &leaf : map_.leaves()) {
            const voxel_key first = low(leaf);
            other.edit_block({first.x, first.y, first.z}, leaf.depth, event::set, leaf.value);
        }
        take(other);
    }
    /// Whether a .bt file could be read in place of the map.
    bool load(const bytes &file) {
        try {
            OcTreeContent other(detail::edge_of(detail::resolution_of(file)), bounds_);
            other.map_.load(file);
            take(other);
            return true;
        } catch (const refused &) {
            return false;
        } catch (const bad_length &) {
            return false;
        }
    }
    /// Swaps the maps alone.
    void swap_maps(OcTreeContent &other) {
        std::swap(static_cast<OcTreeGrid &>(*this), static_cast<OcTreeGrid &>(other));
        std::swap(map_, other.map_);
        std::swap(bounds_, other.bounds_);
        edited();
        other.edited();
    }

    // Changes.

    bool is_tracking() const { return is_tracking_; }
    void track(bool is_wanted) {
        keep_changes();
        is_tracking_ = is_wanted;
        renew_mark();
    }
    void forget_changes() {
        kept_.clear();
        renew_mark();
    }
    /// Before the mark is set anew, or taken away: what has changed until now stays so.
    void keep_changes() {
        if (is_tracking_) kept_ = changed();
    }
    void renew_mark() {
        is_tracking_ ? map_.track() : map_.untrack();
        edited();
    }
    const KeyBoolMap &changed() {
        const std::lock_guard<std::mutex> lock(copies_);
        if (!are_changes_new_) {
            changed_ = kept_;
            if (is_tracking_)
                for (const change_of_voxel &it : map_.changes()) add_change(it);
            are_changes_new_ = true;
        }
        return changed_;
    }

    // Nodes and values.

    /// The node of the block of a depth that holds a voxel; none where nothing is known.
    OcTreeNode *find(const OcTreeKey &key, unsigned depth) {
        const answer there = map_.answer_at(middle_of(key), depth);
        switch (there.code) {
        case OCTOFIX_DONE: return lend(key, depth, there.value);
        case OCTOFIX_UNKNOWN: return nullptr;
        case OCTOFIX_STALE: return find_in_values(key, depth);
        default: throw refused(there.code);
        }
    }
    std::array<OcTreeNode, 8> *children_of(const OcTreeNode &node) {
        if (node.children_ || node.is_leaf_ || node.depth_ == detail::depth_of_voxels)
            return node.children_;
        OcTreeNode *here = values()->find(node.low_, node.depth_);
        return here && here->depth_ == node.depth_ ? here->children_ : nullptr;
    }
    std::shared_ptr<const OcTreeLeaves> leaves() {
        const std::lock_guard<std::mutex> lock(copies_);
        return new_leaves();
    }
    /// The leaves of the blocks of a depth that meet a box.
    std::shared_ptr<const OcTreeLeaves> leaves_in(const OcTreeKey &min, const OcTreeKey &max,
                                                  unsigned depth) {
        if (min[0] > max[0] || min[1] > max[1] || min[2] > max[2]) return shared_leaves({});
        const auto level =
            static_cast<key_type>(detail::depth_of_voxels - detail::walk_depth_of(depth));
        const OcTreeKey first = computeIndexKey(level, min);
        const OcTreeKey last = detail::last_key(computeIndexKey(level, max), level);
        const point low = middle_of(first), high = middle_of(last);
        // (each leaf of the box has a voxel of it)
        std::size_t voxels = 1;
        for (unsigned axis = 0; axis < 3; ++axis) voxels *= last[axis] - first[axis] + 1u;
        const auto list = [&](auto... out) {
            details named;
            return octofix_leaves_in(map_.handle(), &low, &high, out..., &named);
        };
        return shared_leaves({std::min(voxels, most_leaves()), list});
    }
    /// The least tree of the values, counted without a list of its leaves; of voxels alone, where
    /// leaves are shown as these.
    octofix::least_tree least_tree() {
        const std::lock_guard<std::mutex> lock(copies_);
        if (!least_) {
            octofix::least_tree least = map_.least_tree();
            if (is_expanded_) new_leaves()->count_parts(least);
            least_ = least;
        }
        return *least_;
    }
    std::shared_ptr<OcTreeValues> values() {
        const std::lock_guard<std::mutex> lock(copies_);
        if (!are_values_new_) {
            values_ = std::make_shared<OcTreeValues>(this, new_leaves()->blocks(), is_expanded_);
            are_values_new_ = true;
        }
        return values_;
    }

  private:
    using change_of_voxel = octofix::change;

    void edited() {
        leaves_.reset();
        least_.reset();
        are_values_new_ = false;
        are_changes_new_ = false;
    }
    /// Has the map, grid and bounds of another one in place of its own.
    void take(OcTreeContent &other) {
        keep_changes();
        static_cast<OcTreeGrid &>(*this) = other;
        map_ = std::move(other.map_);
        bounds_ = other.bounds_;
        renew_mark();
    }
    OcTreeNode *lend(const OcTreeKey &key, unsigned depth, std::int32_t value) {
        static thread_local detail::lent_nodes lent;
        OcTreeNode node;
        node.content_ = this;
        node.value_ = value;
        node.low_ = computeIndexKey(static_cast<key_type>(detail::depth_of_voxels - depth), key);
        node.depth_ = static_cast<std::uint8_t>(depth);
        node.is_known_ = true;
        return lent.keep(node);
    }
    /// What a stale map refuses, from a copy of its values.
    OcTreeNode *find_in_values(const OcTreeKey &key, unsigned depth) {
        const OcTreeNode *node = values()->find(key, depth);
        return node ? lend(key, depth, node->value_) : nullptr;
    }
    /// The leaves as they are now, while the lock is held.
    const std::shared_ptr<const OcTreeLeaves> &new_leaves() {
        const auto list = [&](auto... out) { return octofix_leaves(map_.handle(), out...); };
        if (!leaves_) leaves_ = shared_leaves({most_leaves(), list});
        return leaves_;
    }
    std::size_t most_leaves() const { return detail::most_leaves(map_.memory()); }
    std::shared_ptr<OcTreeLeaves> shared_leaves(detail::listed_blocks blocks) {
        return std::make_shared<OcTreeLeaves>(this, std::move(blocks), is_expanded_);
    }
    void add_change(const change_of_voxel &it) {
        const OcTreeKey key(it.key.x, it.key.y, it.key.z);
        if (it.kind == change_kind::lost) return;
        const auto [place, is_first] = changed_.emplace(key, it.kind == change_kind::is_new);
        const bool turns_back = !is_first && it.kind != change_kind::is_new && !place->second;
        if (turns_back) changed_.erase(place);
    }

    /// As many groups and voxels met as a map takes.
    static constexpr limits most_ = {1 << 26, 1 << 27};

    odds bounds_; // its hit and miss are those of no scan
    map map_;
    bool is_tracking_ = false, is_expanded_ = false;
    KeyBoolMap kept_; // what has changed until the mark

    std::mutex copies_; // guards what follows
    std::shared_ptr<const OcTreeLeaves> leaves_; // of the map as it is, or none
    std::optional<octofix::least_tree> least_;   // likewise
    std::shared_ptr<OcTreeValues> values_;
    KeyBoolMap changed_;
    bool are_values_new_ = false, are_changes_new_ = false;
};

inline void OcTreeNode::setLogOdds(float logodds) {
    const std::int32_t wanted = detail::thousandths(logodds);
    value_ = wanted;
    if (!content_) return;
    content_->edit_block(low_, depth_, event::set, wanted);
    value_ = std::clamp(wanted, content_->bounds().min, content_->bounds().max);
}
inline bool OcTreeNode::hasChildren() const {
    return content_ && content_->children_of(*this) != nullptr;
}

} // namespace octofix

#endif
