// What calls take and answer, and rows of it. Part of octofix.hpp.
#ifndef OCTOFIX_TYPES_HPP
#define OCTOFIX_TYPES_HPP

#include "errors.hpp"

#include <cstddef>
#include <cstdint>
#include <iterator>
#include <memory>
#include <new>
#include <optional>
#include <stdexcept>
#include <type_traits>
#include <utility>
#include <vector>

namespace octofix {

using point = octofix_point; ///< in whole nanometres
using voxel_key = octofix_key;
using box = octofix_box;
using segment = octofix_segment;
using pose = octofix_pose;
using odds = octofix_odds; ///< in thousandths
using limits = octofix_limits;
using settings = octofix_settings;
using counted = octofix_counted;
using counts = octofix_counts;
using least_tree = octofix_least_tree;
using block = octofix_block;
using answer = octofix_answer;
using stop = octofix_stop; ///< its code: OCTOFIX_DONE (occupied), OCTOFIX_UNKNOWN or OCTOFIX_CLEAR

/// What an edit does to the value of a voxel.
enum class event : std::uint32_t {
    add = OCTOFIX_ADD,
    set = OCTOFIX_SET,
    forget = OCTOFIX_FORGET,
    likely = OCTOFIX_LIKELY
};

/// Which value a voxel gets that both maps of a merge know.
enum class rule : std::uint32_t {
    first = OCTOFIX_FIRST,
    greatest = OCTOFIX_GREATEST,
    least = OCTOFIX_LEAST
};

/// How a voxel has changed since the mark.
enum class change_kind : std::uint16_t {
    is_new = OCTOFIX_NEW,
    lost = OCTOFIX_LOST,
    occupied = OCTOFIX_OCCUPIED,
    freed = OCTOFIX_FREED
};

/// What bounds() and leaves() look for.
enum class sought : std::uint32_t {
    known = OCTOFIX_KNOWN_VOXELS,
    occupied = OCTOFIX_OCCUPIED_VOXELS,
    free = OCTOFIX_FREE_VOXELS
};

inline constexpr odds default_odds = OCTOFIX_DEFAULT_ODDS;
inline constexpr limits default_limits = OCTOFIX_DEFAULT_LIMITS;

/// How a scan is to be done. The range is in metres, 0 or more, and none where it isn't given.
/// Where hit and miss are both 0, they are those of the map.
struct scan_options {
    std::optional<double> range;
    std::int32_t hit = 0, miss = 0;
    bool lazy = false;
};

/// An edit of the voxel that holds a point.
struct edit {
    point at;
    event what;
    std::int32_t number = 0;
};

struct change {
    voxel_key key;
    change_kind kind;
};

/// What the columns of voxels of a box show, each as one cell: the numbers and the order of the
/// data of a nav_msgs/OccupancyGrid of ROS.
struct occupancy_grid {
    std::size_t width = 0, height = 0; ///< how many cells there are along x, and along y
    double x = 0, y = 0;               ///< the lowest corner of the first one, in metres
    double resolution = 0;             ///< the edge of a cell, in metres
    /// OCTOFIX_CELL_OCCUPIED, .._FREE or .._UNKNOWN, the row of the lowest y first.
    std::vector<std::int8_t> cells;

    /// The cell of a column, in a row on y, both from 0.
    [[nodiscard]] std::int8_t at(std::size_t column, std::size_t row) const {
        if (column >= width || row >= height) throw std::out_of_range("no such cell of a grid");
        return cells[row * width + column];
    }
};

/// A known voxel and its value.
struct voxel {
    voxel_key key;
    std::int32_t value;
};

/// Elements that stand in a row and belong to somebody else: those of a vector, an array, a range
/// of addresses. It is to be used while they stand.
template <class T> class view {
  public:
    constexpr view() = default;
    constexpr view(const T *first, std::size_t size) : first_(first), size_(size) {}
    template <std::size_t N> constexpr view(const T (&array)[N]) : first_(array), size_(N) {}
    /// (Elements of a class derived from T are of another size: as std::span, this takes those
    /// alone whose arrays are arrays of T.)
    template <class Row, class Element = std::remove_pointer_t<
                             decltype(std::data(std::declval<const Row &>()))>,
              class = std::enable_if_t<std::is_convertible_v<Element (*)[], const T (*)[]>>>
    constexpr view(const Row &row) : first_(std::data(row)), size_(std::size(row)) {}

    constexpr const T *data() const { return first_; }
    constexpr std::size_t size() const { return size_; }
    constexpr bool empty() const { return size_ == 0; }
    constexpr const T *begin() const { return first_; }
    constexpr const T *end() const { return first_ + size_; }
    constexpr const T &operator[](std::size_t i) const { return first_[i]; }

  private:
    const T *first_ = nullptr;
    std::size_t size_ = 0;
};

namespace detail {

/// Throws what a code is, but for 0.
inline void check(std::uint32_t code, const details &named = {}, bool is_of_array = false) {
    if (code == OCTOFIX_DONE) return;
    if (code == OCTOFIX_MEMORY) throw std::bad_alloc();
    throw refused(code, named, is_of_array);
}

/// Where elements begin, and some place where there are none: the calls of C take no null pointer.
template <class T> const T *start(view<T> row) {
    static const T none{};
    return row.empty() ? &none : row.data();
}

/// All that a call lists. It is asked again where there are more than a few things.
template <class T, class Call> std::vector<T> listed(Call call) {
    std::vector<T> found(256);
    std::size_t count = 0;
    std::uint32_t code = call(found.data(), found.size(), &count);
    if (code == OCTOFIX_SMALL_BUFFER) {
        found.resize(count);
        code = call(found.data(), found.size(), &count);
    }
    check(code);
    found.resize(count);
    return found;
}

/// Blocks that a call has listed. (Memory that nothing was written to isn't touched.)
struct listed_blocks {
    /// Asks with so much room at first, and again where there are more.
    template <class Call> listed_blocks(std::size_t room, Call call) : first(new block[room]) {
        std::uint32_t code = call(first.get(), room, &count);
        if (code == OCTOFIX_SMALL_BUFFER) {
            first.reset(new block[count]);
            code = call(first.get(), count, &count);
        }
        check(code);
    }
    listed_blocks() = default;

    std::unique_ptr<block[]> first;
    std::size_t count = 0;
};

/// How many leaves a map of so many bytes may have: one takes more than eight of most maps.
inline std::size_t most_leaves(std::uint64_t bytes) {
    return static_cast<std::size_t>(bytes / 8 + 1);
}

} // namespace detail

} // namespace octofix

#endif
