// Keys of voxels and blocks, sets of them, and where they lie, as the OctoMap library has them.
// Part of octofix_octree.hpp.
#ifndef OCTOFIX_OCTREE_KEYS_HPP
#define OCTOFIX_OCTREE_KEYS_HPP

#include "blocks.hpp"
#include "octree_math.hpp"

#include <algorithm>
#include <cmath>
#include <cstddef>
#include <cstdint>
#include <unordered_map>
#include <unordered_set>
#include <vector>

namespace octofix {

using key_type = std::uint16_t;

class OcTreeKey {
  public:
    OcTreeKey() = default;
    OcTreeKey(key_type a, key_type b, key_type c) : k{a, b, c} {}

    bool operator==(const OcTreeKey &o) const {
        return k[0] == o.k[0] && k[1] == o.k[1] && k[2] == o.k[2];
    }
    bool operator!=(const OcTreeKey &o) const { return !(*this == o); }
    const key_type &operator[](unsigned i) const { return k[i]; }
    key_type &operator[](unsigned i) { return k[i]; }

    key_type k[3] = {0, 0, 0};

    struct KeyHash {
        std::size_t operator()(const OcTreeKey &key) const {
            return key.k[0] + std::size_t{1447} * key.k[1] + std::size_t{345637} * key.k[2];
        }
    };
};

using KeySet = std::unordered_set<OcTreeKey, OcTreeKey::KeyHash>;
using KeyBoolMap = std::unordered_map<OcTreeKey, bool, OcTreeKey::KeyHash>;

/// The voxels of a ray, in their order.
class KeyRay {
  public:
    using iterator = std::vector<OcTreeKey>::iterator;
    using const_iterator = std::vector<OcTreeKey>::const_iterator;
    using reverse_iterator = std::vector<OcTreeKey>::reverse_iterator;

    void reset() { keys_.clear(); }
    void addKey(const OcTreeKey &key) { keys_.push_back(key); }
    std::size_t size() const { return keys_.size(); }
    std::size_t sizeMax() const { return keys_.max_size(); }
    iterator begin() { return keys_.begin(); }
    iterator end() { return keys_.end(); }
    const_iterator begin() const { return keys_.begin(); }
    const_iterator end() const { return keys_.end(); }
    reverse_iterator rbegin() { return keys_.rbegin(); }
    reverse_iterator rend() { return keys_.rend(); }

  private:
    std::vector<OcTreeKey> keys_;
};

namespace detail {

inline constexpr unsigned depth_of_voxels = 16;

inline double in_metres(std::int64_t nanometres) { return static_cast<double>(nanometres) / 1e9; }

/// A depth that blocks have; another one is refused.
inline unsigned depth_of(unsigned depth) {
    if (depth > depth_of_voxels) throw refused(OCTOFIX_BAD_DEPTH);
    return depth;
}
/// The depth of a walk, of which 0 and those below voxels are that of voxels.
inline unsigned walk_depth_of(unsigned depth) {
    return depth == 0 ? depth_of_voxels : std::min(depth, depth_of_voxels);
}

} // namespace detail

/// The lowest key of the block of a level that holds this one; level 0 is that of voxels, and from
/// 16 on there is one block.
inline OcTreeKey computeIndexKey(key_type level, const OcTreeKey &key) {
    const key_type mask = static_cast<key_type>(65535u << std::min<unsigned>(level, 16));
    return {static_cast<key_type>(key[0] & mask), static_cast<key_type>(key[1] & mask),
            static_cast<key_type>(key[2] & mask)};
}

namespace detail {

/// The highest key of a block of a level, of which this is the lowest one.
inline OcTreeKey last_key(const OcTreeKey &low, unsigned level) {
    const auto last = [&](key_type k) { return static_cast<key_type>(k + (1u << level) - 1); };
    return {last(low[0]), last(low[1]), last(low[2])};
}

} // namespace detail

/// Which child of its block holds the key, by this bit of its numbers, which has 0 beyond its own.
inline std::uint8_t computeChildIdx(const OcTreeKey &key, int bit) {
    if (bit < 0 || bit > 15) return 0;
    return static_cast<std::uint8_t>((key[0] >> bit & 1) | (key[1] >> bit & 1) << 1 |
                                     (key[2] >> bit & 1) << 2);
}

/// The key in the middle of a child: half of the child's edge is the offset, or 0 for a voxel.
inline void computeChildKey(unsigned child, key_type offset, const OcTreeKey &parent,
                            OcTreeKey &key) {
    const int below = offset + (offset == 0 ? 1 : 0);
    for (unsigned axis = 0; axis < 3; ++axis)
        key[axis] = static_cast<key_type>((child >> axis & 1) != 0 ? parent[axis] + offset
                                                                   : parent[axis] - below);
}

/// How coordinates and keys belong together: by whole nanometres, rounded down, as in octofix.h,
/// and not by a product of doubles.
class OcTreeGrid {
  public:
    explicit OcTreeGrid(std::int64_t edge) : edge_(edge) {}

    double getResolution() const { return detail::in_metres(edge_); }
    unsigned getTreeDepth() const { return 16; }
    double getNodeSize(unsigned depth) const {
        return getResolution() * static_cast<double>(1u << (16 - detail::depth_of(depth)));
    }

    bool coordToKeyChecked(double c, key_type &key) const {
        if (!(std::fabs(c) < 1e7)) return false;
        const std::int64_t number = number_at(c);
        if (number < 0 || number > 65535) return false;
        key = static_cast<key_type>(number);
        return true;
    }
    bool coordToKeyChecked(double c, unsigned depth, key_type &key) const {
        if (!coordToKeyChecked(c, key)) return false;
        key = adjustKeyAtDepth(key, depth);
        return true;
    }
    bool coordToKeyChecked(double x, double y, double z, OcTreeKey &key) const {
        return coordToKeyChecked(x, key[0]) && coordToKeyChecked(y, key[1]) &&
               coordToKeyChecked(z, key[2]);
    }
    bool coordToKeyChecked(double x, double y, double z, unsigned depth, OcTreeKey &key) const {
        if (!coordToKeyChecked(x, y, z, key)) return false;
        key = adjustKeyAtDepth(key, depth);
        return true;
    }
    bool coordToKeyChecked(const point3d &p, OcTreeKey &key) const {
        return coordToKeyChecked(p.x(), p.y(), p.z(), key);
    }
    bool coordToKeyChecked(const point3d &p, unsigned depth, OcTreeKey &key) const {
        return coordToKeyChecked(p.x(), p.y(), p.z(), depth, key);
    }

    /// Of a coordinate in the map; a key of another voxel where it lies outside.
    key_type coordToKey(double c) const {
        key_type key = 0;
        coordToKeyChecked(c, key);
        return key;
    }
    key_type coordToKey(double c, unsigned depth) const {
        return adjustKeyAtDepth(coordToKey(c), depth);
    }
    OcTreeKey coordToKey(double x, double y, double z) const {
        return {coordToKey(x), coordToKey(y), coordToKey(z)};
    }
    OcTreeKey coordToKey(double x, double y, double z, unsigned depth) const {
        return adjustKeyAtDepth(coordToKey(x, y, z), depth);
    }
    OcTreeKey coordToKey(const point3d &p) const { return coordToKey(p.x(), p.y(), p.z()); }
    OcTreeKey coordToKey(const point3d &p, unsigned depth) const {
        return adjustKeyAtDepth(coordToKey(p), depth);
    }

    /// The key in the middle of the block of this depth that holds the voxel; for that of the whole
    /// map 0, as the OctoMap library has it.
    key_type adjustKeyAtDepth(key_type key, unsigned depth) const {
        const unsigned level = 16 - detail::depth_of(depth);
        if (level == 0) return key;
        if (level == 16) return 0;
        return static_cast<key_type>((key >> level << level) + (1 << (level - 1)));
    }
    OcTreeKey adjustKeyAtDepth(const OcTreeKey &key, unsigned depth) const {
        return {adjustKeyAtDepth(key[0], depth), adjustKeyAtDepth(key[1], depth),
                adjustKeyAtDepth(key[2], depth)};
    }

    /// The middle of a voxel, or of the block of this depth that holds it.
    double keyToCoord(key_type key, unsigned depth = 16) const {
        const int level = static_cast<int>(16 - detail::depth_of(depth)), half = 32768 >> level;
        return ((key >> level) - half + (depth == 0 ? 0.0 : 0.5)) * getNodeSize(depth);
    }
    point3d keyToCoord(const OcTreeKey &key, unsigned depth = 16) const {
        return {static_cast<float>(keyToCoord(key[0], depth)),
                static_cast<float>(keyToCoord(key[1], depth)),
                static_cast<float>(keyToCoord(key[2], depth))};
    }

  protected:
    std::int64_t edge() const { return edge_; }
    /// The number of the voxels at a coordinate, which may lie beyond the keys.
    std::int64_t number_at(double c) const {
        return floored(std::llrint(std::fmax(-1e16, std::fmin(1e16, c * 1e9)))) + 32768;
    }
    /// The point in a voxel's middle.
    point middle_of(const OcTreeKey &key) const {
        return detail::point_of({key[0], key[1], key[2]}, edge_);
    }

  private:
    std::int64_t floored(std::int64_t c) const { return c / edge_ - (c % edge_ < 0); }

    std::int64_t edge_;
};

} // namespace octofix

#endif
