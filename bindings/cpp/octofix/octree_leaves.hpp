// The leaves of a map at one moment, twelve bytes each. Part of octofix_octree.hpp.
#ifndef OCTOFIX_OCTREE_LEAVES_HPP
#define OCTOFIX_OCTREE_LEAVES_HPP

#include "../octofix.hpp"

#include <cstdint>
#include <utility>

namespace octofix {

class OcTreeContent;

/// The leaves in Morton order. Where voxels alone are wanted, each leaf is shown as its voxels.
class OcTreeLeaves {
  public:
    OcTreeLeaves(OcTreeContent *content, detail::listed_blocks blocks, bool voxels_alone)
        : content_(content), owned_(std::move(blocks)), blocks_(owned_.first.get(), owned_.count),
          voxels_alone_(voxels_alone) {}
    OcTreeLeaves(const OcTreeLeaves &) = delete;
    OcTreeLeaves &operator=(const OcTreeLeaves &) = delete;

    OcTreeContent *content() const { return content_; }
    view<block> blocks() const { return blocks_; }
    bool are_voxels_alone() const { return voxels_alone_; }
    /// Counts the voxels of each leaf in place of it.
    void count_parts(least_tree &least) const {
        for (const block &it : blocks_) {
            const std::uint64_t voxels = std::uint64_t{1} << 3 * (16 - it.depth);
            for (std::uint64_t nodes = 8; nodes <= voxels; nodes *= 8) least.nodes += nodes;
            least.leaves += voxels - 1;
        }
    }

  private:
    OcTreeContent *content_;
    detail::listed_blocks owned_;
    view<block> blocks_;
    bool voxels_alone_;
};

} // namespace octofix

#endif
