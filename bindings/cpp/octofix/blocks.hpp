// Blocks of voxels, their voxels, and those of a ray. Part of octofix.hpp.
#ifndef OCTOFIX_BLOCKS_HPP
#define OCTOFIX_BLOCKS_HPP

#include "metres.hpp"

#include <array>
#include <cstddef>
#include <cstdint>
#include <iterator>
#include <utility>
#include <vector>

namespace octofix {

/// How many voxels the edge of a block has.
[[nodiscard]] inline std::uint32_t edge(const block &it) {
    return std::uint32_t{1} << (16 - it.depth);
}

/// The voxel of a block with the lowest keys.
[[nodiscard]] inline voxel_key low(const block &it) {
    const auto number = [&](std::uint16_t b) { return static_cast<std::uint16_t>(b * edge(it)); };
    return {number(it.x), number(it.y), number(it.z)};
}

namespace detail {

/// The voxel that holds a point. Throws as a point outside the map is refused.
inline voxel_key key_of(const point &at, std::int64_t res) {
    return {key_at(at.x, res), key_at(at.y, res), key_at(at.z, res)};
}
/// A point in a voxel.
inline point point_of(const voxel_key &it, std::int64_t res) {
    const auto middle = [&](std::int64_t key) { return (key - 32768) * res + res / 2; };
    return {middle(it.x), middle(it.y), middle(it.z)};
}
inline block block_of(const voxel_key &it) { return {16, it.x, it.y, it.z, 0}; }
/// The middle of a block in metres.
inline std::array<double, 3> center_of(const block &it, double res) {
    const double half = edge(it) / 2.0;
    const voxel_key first = low(it);
    return {(first.x - 32768 + half) * res, (first.y - 32768 + half) * res,
            (first.z - 32768 + half) * res};
}
inline std::vector<std::array<double, 3>> centers_of(view<block> blocks, double res) {
    std::vector<std::array<double, 3>> all;
    all.reserve(blocks.size());
    for (const block &it : blocks) all.push_back(center_of(it, res));
    return all;
}
/// The voxel of a block with the highest keys.
inline voxel_key high(const block &it) {
    const voxel_key first = low(it);
    const auto last = [&](std::uint16_t k) { return static_cast<std::uint16_t>(k + edge(it) - 1); };
    return {last(first.x), last(first.y), last(first.z)};
}

} // namespace detail

/// All known voxels of blocks, one after another, each made when it is reached. A block of depth 0
/// has 2^48.
class voxels {
  public:
    class iterator {
      public:
        using iterator_category = std::input_iterator_tag;
        using value_type = voxel;
        using difference_type = std::ptrdiff_t;
        using pointer = const voxel *;
        using reference = voxel;

        iterator(const block *at, std::uint64_t number) : at_(at), number_(number) {}
        voxel operator*() const {
            const std::uint64_t n = edge(*at_);
            const voxel_key first = low(*at_);
            const auto add = [](std::uint16_t k, std::uint64_t more) {
                return static_cast<std::uint16_t>(k + more);
            };
            return {{add(first.x, number_ / (n * n)), add(first.y, number_ / n % n),
                     add(first.z, number_ % n)},
                    at_->value};
        }
        iterator &operator++() {
            const std::uint64_t n = edge(*at_);
            if (++number_ == n * n * n) ++at_, number_ = 0;
            return *this;
        }
        iterator operator++(int) {
            iterator before = *this;
            ++*this;
            return before;
        }
        bool operator==(const iterator &other) const {
            return at_ == other.at_ && number_ == other.number_;
        }
        bool operator!=(const iterator &other) const { return !(*this == other); }

      private:
        const block *at_;
        std::uint64_t number_;
    };

    explicit voxels(std::vector<block> blocks) : blocks_(std::move(blocks)) {}
    iterator begin() const { return {blocks_.data(), 0}; }
    iterator end() const { return {blocks_.data() + blocks_.size(), 0}; }

  private:
    std::vector<block> blocks_;
};

/// The keys of all voxels of res metres that the straight way between two points meets.
[[nodiscard]] inline std::vector<voxel_key> ray(double res, const point &origin, const point &end) {
    const std::int64_t edge = detail::edge_of(res);
    details named{};
    return detail::listed<voxel_key>([&](voxel_key *keys, std::size_t room, std::size_t *count) {
        const std::uint32_t code = octofix_ray(edge, &origin, &end, keys, room, count, &named);
        if (code != OCTOFIX_SMALL_BUFFER) detail::check(code, named);
        return code;
    });
}
/// The same of a float, which stands for the decimal that it prints.
template <class Float, class = detail::if_float<Float>>
[[nodiscard]] std::vector<voxel_key> ray(Float res, const point &origin, const point &end) {
    return ray(detail::decimal_of(res), origin, end);
}

} // namespace octofix

#endif
