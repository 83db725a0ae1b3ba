// Where sensors stand, how they are turned, and where their points lie. Part of octofix.hpp.
#ifndef OCTOFIX_POSES_HPP
#define OCTOFIX_POSES_HPP

#include "metres.hpp"

#include <array>
#include <cmath>
#include <cstddef>
#include <cstdint>
#include <stdexcept>
#include <vector>

namespace octofix {

/// A turn, by a quaternion of any length but 0.
struct quaternion {
    double w, x, y, z;
};

/// A sensor that is turned. Calls of C++ turn its points in double; what takes a pose, as those of
/// C do, has the quaternion in sixteen bits, which is off by up to 3e-5 radians.
struct turned_pose : octofix_pose {
    turned_pose(const octofix_pose &rough, const quaternion &exact)
        : octofix_pose(rough), by(exact) {}

    quaternion by; ///< as turned() makes it, its greatest number is 1 or -1
};

/// A sensor at a place in metres that isn't turned.
[[nodiscard]] inline pose pose_at(double x, double y, double z) {
    return {metres(x, y, z), 32767, 0, 0, 0};
}

/// A sensor that is turned by a quaternion of any length but 0.
[[nodiscard]] inline turned_pose turned(const point &at, double w, double x, double y, double z) {
    const double largest =
        std::fmax(std::fmax(std::fabs(w), std::fabs(x)), std::fmax(std::fabs(y), std::fabs(z)));
    const bool is_finite =
        std::isfinite(w) && std::isfinite(x) && std::isfinite(y) && std::isfinite(z);
    if (!(largest > 0) || !is_finite)
        throw std::domain_error("a quaternion that is 0, or isn't finite");
    const quaternion by = {w / largest, x / largest, y / largest, z / largest};
    const auto part = [](double q) { return static_cast<std::int16_t>(std::lrint(q * 32767)); };
    return {{at, part(by.w), part(by.x), part(by.y), part(by.z)}, by};
}

namespace detail {

/// A sensor at a place that isn't turned.
inline pose upright_at(const point &at) { return {at, 1, 0, 0, 0}; }

/// What turns points, row by row.
inline std::array<std::array<double, 3>, 3> matrix_of(const quaternion &by) {
    const auto [w, x, y, z] = by;
    const double size = w * w + x * x + y * y + z * z;
    return {{{(w * w + x * x - y * y - z * z) / size, 2 * (x * y - w * z) / size,
              2 * (x * z + w * y) / size},
             {2 * (x * y + w * z) / size, (w * w - x * x + y * y - z * z) / size,
              2 * (y * z - w * x) / size},
             {2 * (x * z - w * y) / size, 2 * (y * z + w * x) / size,
              (w * w - x * x - y * y + z * z) / size}}};
}

/// The ways of beams along the axes of the map, each turned in double, and rounded once. What lies
/// so far away that no call takes it stays so.
inline std::vector<point> turned_ways(const quaternion &by, view<point> points) {
    if (by.x == 0 && by.y == 0 && by.z == 0) return {points.begin(), points.end()};
    const auto matrix = matrix_of(by);
    const auto part = [&](const point &it, std::size_t axis) {
        const auto &row = matrix[axis];
        const double sum = static_cast<double>(it.x) * row[0] + static_cast<double>(it.y) * row[1] +
                           static_cast<double>(it.z) * row[2];
        constexpr double far = 1e16;
        return std::llrint(std::fmax(-far, std::fmin(far, sum)));
    };
    std::vector<point> ways;
    ways.reserve(points.size());
    for (const point &it : points) ways.push_back({part(it, 0), part(it, 1), part(it, 2)});
    return ways;
}

} // namespace detail

/// Where points of a sensor's frame lie in that of the map, each turned, rounded once, and moved,
/// as by a scan.
[[nodiscard]] inline std::vector<point> place(const pose &sensor, view<point> points) {
    std::vector<point> places(points.size() + 1);
    details named{};
    detail::check(octofix_place(&sensor, detail::start(points), points.size(), places.data(),
                                points.size(), &named),
                  named, !points.empty());
    places.pop_back();
    return places;
}
[[nodiscard]] inline std::vector<point> place(const turned_pose &sensor, view<point> points) {
    return place(detail::upright_at(sensor.at), detail::turned_ways(sensor.by, points));
}

} // namespace octofix

#endif
