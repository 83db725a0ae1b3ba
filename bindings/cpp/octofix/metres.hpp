// Metres made whole nanometres, and probabilities log-odds. Part of octofix.hpp.
#ifndef OCTOFIX_METRES_HPP
#define OCTOFIX_METRES_HPP

#include "types.hpp"

#include <cmath>
#include <cstddef>
#include <cstdint>
#include <cstdio>
#include <cstdlib>
#include <iterator>
#include <limits>
#include <optional>
#include <stdexcept>
#include <type_traits>
#include <utility>
#include <vector>

namespace octofix {

/// The nearest whole nanometres; halves go to the even ones. Throws bad_length with this index.
[[nodiscard]] inline std::int64_t nanometres(double metres, std::size_t index = 0) {
    if (!(std::fabs(metres) < 1e7)) throw bad_length(index);
    return std::llrint(metres * 1e9);
}

namespace detail {

template <class T, class = void> struct has_fields : std::false_type {};
template <class T>
struct has_fields<T, std::void_t<decltype(std::declval<const T &>().x + 0.0)>> : std::true_type {};

/// The shortest decimal that a float prints, as 0.05 for 0.05f, whose own value is more by 7e-10.
inline double decimal_of(float metres) {
    constexpr int most = std::numeric_limits<float>::max_digits10;
    char text[32];
    for (int digits = std::numeric_limits<float>::digits10; digits <= most; ++digits) {
        std::snprintf(text, sizeof text, "%.*g", digits, static_cast<double>(metres));
        const double decimal = std::strtod(text, nullptr);
        if (static_cast<float>(decimal) == metres) return decimal;
    }
    return static_cast<double>(metres); // which is no number
}

/// A type that is float, and no other.
template <class Number>
using if_float = std::enable_if_t<std::is_same_v<Number, float>>;

/// The edge of a voxel.
inline std::int64_t edge_of(double metres) {
    if (std::fabs(metres) < 1e7) return nanometres(metres);
    throw bad_length("the edge of a voxel isn't finite, or 10^7 m or more");
}

/// The range of a scan, as octofix.h has it.
inline std::int64_t range_of(const std::optional<double> &metres) {
    if (!metres) return -1;
    if (*metres >= 0 && *metres < 1e7) return nanometres(*metres);
    throw bad_length("a range isn't from 0 to below 10^7 m");
}

/// The key of a coordinate. Throws as a point outside the map is refused.
inline std::uint16_t key_at(std::int64_t coordinate, std::int64_t res) {
    const std::int64_t below = coordinate / res - (coordinate % res < 0);
    if (below < -32768 || below > 32767) throw refused(OCTOFIX_OUTSIDE, {1, 0});
    return static_cast<std::uint16_t>(below + 32768);
}

} // namespace detail

/// A point in metres.
[[nodiscard]] inline point metres(double x, double y, double z) {
    return {nanometres(x), nanometres(y), nanometres(z)};
}

/// What is done with points that aren't finite, as those of an organised cloud that saw nothing.
enum class unfinite { refused, skipped };

namespace detail {

/// Points that are collected from rows of numbers, of which each has its index.
class collected {
  public:
    collected(std::size_t count, unfinite those) : skips_(those == unfinite::skipped) {
        points_.reserve(count);
    }
    void add(double x, double y, double z) {
        const std::size_t i = index_++;
        if (skips_ && !(std::isfinite(x) && std::isfinite(y) && std::isfinite(z))) return;
        points_.push_back({nanometres(x, i), nanometres(y, i), nanometres(z, i)});
    }
    std::vector<point> take() { return std::move(points_); }

  private:
    std::vector<point> points_;
    std::size_t index_ = 0;
    bool skips_;
};

} // namespace detail

/// Points in metres: of any row whose elements have numbers x, y and z, or [0], [1] and [2].
template <class Row>
[[nodiscard]] std::vector<point> metres(const Row &row, unfinite those = unfinite::refused) {
    detail::collected points(std::size(row), those);
    for (const auto &it : row)
        if constexpr (detail::has_fields<std::decay_t<decltype(it)>>::value)
            points.add(it.x, it.y, it.z);
        else
            points.add(it[0], it[1], it[2]);
    return points.take();
}

/// Points in metres: of count times three numbers in a row.
template <class Number>
[[nodiscard]] std::vector<point> metres(const Number *xyz, std::size_t count,
                                        unfinite those = unfinite::refused) {
    detail::collected points(count, those);
    for (std::size_t i = 0; i < count; ++i, xyz += 3) points.add(xyz[0], xyz[1], xyz[2]);
    return points.take();
}

/// The thousandths of log-odds of a probability: 847 of 0.7.
[[nodiscard]] inline std::int32_t log_odds(double probability) {
    const double value = 1000 * std::log(probability / (1 - probability));
    if (!(std::fabs(value) <= 1e6)) throw std::domain_error("not a probability between 0 and 1");
    return static_cast<std::int32_t>(std::lrint(value));
}

/// The probability of a value.
[[nodiscard]] inline double probability_of(std::int32_t value) {
    return 1 / (1 + std::exp(static_cast<double>(value) / -1000.0));
}

} // namespace octofix

#endif
