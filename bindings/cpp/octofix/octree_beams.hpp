// The methods of OcTree that go along beams: scans, rays and casts. Part of octofix_octree.hpp.
#ifndef OCTOFIX_OCTREE_BEAMS_HPP
#define OCTOFIX_OCTREE_BEAMS_HPP

#include "octree_occupancy.hpp"

#include <algorithm>
#include <array>
#include <cmath>
#include <cstdint>
#include <limits>
#include <optional>
#include <vector>

namespace octofix {
namespace detail {

/// The way from a place to a point in nanometres. One that a scan doesn't take is shortened to one
/// that it does, of the same direction and longer than any map.
inline point way_to(const point &from, const point3d &p) {
    constexpr double longest = 9.9e15;
    const std::array<double, 3> way = {p.x() * 1e9 - static_cast<double>(from.x),
                                       p.y() * 1e9 - static_cast<double>(from.y),
                                       p.z() * 1e9 - static_cast<double>(from.z)};
    const double largest =
        std::fmax(std::fabs(way[0]), std::fmax(std::fabs(way[1]), std::fabs(way[2])));
    if (largest < longest)
        return {std::llrint(p.x() * 1e9) - from.x, std::llrint(p.y() * 1e9) - from.y,
                std::llrint(p.z() * 1e9) - from.z};
    const auto part = [&](double c) { return std::llrint(c / largest * longest); };
    return {part(way[0]), part(way[1]), part(way[2])};
}

} // namespace detail

// Scans.

/// While it stands, scans change only voxels of the box, as far as it lies in the map.
class OcTreeOccupancy::box_limit {
  public:
    box_limit(map &limited, const number_box &to, std::int64_t edge) : map_(limited) {
        std::array<key_type, 3> low{}, high{};
        for (unsigned axis = 0; axis < 3; ++axis) {
            const std::int64_t first = std::max<std::int64_t>(to.low[axis], 0);
            const std::int64_t last = std::min<std::int64_t>(to.high[axis], 65535);
            is_empty_ = is_empty_ || first > last;
            low[axis] = static_cast<key_type>(first), high[axis] = static_cast<key_type>(last);
        }
        if (!is_empty_)
            map_.limit(detail::point_of({low[0], low[1], low[2]}, edge),
                       detail::point_of({high[0], high[1], high[2]}, edge));
    }
    box_limit(const box_limit &) = delete;
    box_limit &operator=(const box_limit &) = delete;
    ~box_limit() { octofix_no_limit(map_.handle()); }
    bool is_empty() const { return is_empty_; }

  private:
    map &map_;
    bool is_empty_ = false;
};

inline bool OcTreeOccupancy::insertRay(const point3d &origin, const point3d &end, double maxrange,
                                       bool lazy) {
    const double range = maxrange > 0 ? maxrange : -1;
    OcTreeKey key;
    if (!coordToKeyChecked(origin, key) || !coordToKeyChecked(cut(origin, end, range), key))
        return false;
    Pointcloud one;
    one.push_back(end);
    insert_scan(one, origin, range, lazy, false);
    return true;
}

inline Pointcloud OcTreeOccupancy::discretized(const Pointcloud &scan) const {
    Pointcloud middles;
    KeySet seen;
    OcTreeKey key;
    for (const point3d &p : scan)
        if (coordToKeyChecked(p, key) && seen.insert(key).second)
            middles.push_back(keyToCoord(key));
    return middles;
}

/// The voxels that a scan frees and hits, in the box alone where it counts.
inline void OcTreeOccupancy::find_update(const Pointcloud &scan, const point3d &origin,
                                         KeySet &free_cells, KeySet &occupied_cells,
                                         double maxrange, bool in_box) const {
    const number_box limits_of_scans = box_of_scans();
    KeyRay ray;
    OcTreeKey key;
    for (const point3d &p : scan) {
        const bool is_near = is_in_range(origin, p, maxrange);
        if (in_box && !(is_near && inBBX(p))) continue;
        if (computeRayKeys(origin, is_near ? p : cut(origin, p, maxrange), ray))
            for (const OcTreeKey &it : ray)
                if (!in_box || limits_of_scans.holds(it)) free_cells.insert(it);
        if (is_near && coordToKeyChecked(p, key)) occupied_cells.insert(key);
    }
    for (const OcTreeKey &hit : occupied_cells) free_cells.erase(hit);
}

/// The ways of the beams that begin in the map and end there, once they are cut.
inline std::vector<point> OcTreeOccupancy::ways_of(const Pointcloud &scan, const point3d &origin,
                                                   double maxrange, bool in_box) const {
    const point from = exact(origin);
    std::vector<point> ways;
    ways.reserve(scan.size());
    OcTreeKey key;
    for (const point3d &p : scan) {
        if (!std::isfinite((p - origin).norm())) continue;
        if (in_box && !(inBBX(p) && is_in_range(origin, p, maxrange))) continue;
        if (coordToKeyChecked(cut(origin, p, maxrange), key))
            ways.push_back(detail::way_to(from, p));
    }
    return ways;
}

inline void OcTreeOccupancy::insert_scan(const Pointcloud &scan, const point3d &origin,
                                         double maxrange, bool lazy, bool in_box) {
    OcTreeKey key;
    if (!coordToKeyChecked(origin, key)) return hit_ends(scan, origin, maxrange, lazy, in_box);
    if (hit_ == 0 || miss_ == 0) // which a scan of a map takes for no log-odds
        return insert_by_voxels(scan, origin, maxrange, lazy, in_box);
    const std::vector<point> ways = ways_of(scan, origin, maxrange, in_box);
    scan_options how;
    if (maxrange >= 0 && maxrange < 1e7) how.range = maxrange; // no longer one cuts a beam
    how.hit = hit_, how.miss = miss_, how.lazy = lazy;
    try {
        content().change([&](map &it) {
            std::optional<box_limit> limit;
            if (in_box) limit.emplace(it, box_of_scans(), edge());
            if (limit && limit->is_empty()) return;
            it.scan(detail::upright_at(exact(origin)), ways, how);
        });
    } catch (const refused &error) {
        // A beam that ends in the map when it is cut in floats, and beside it when it is exactly.
        if (error.code() != OCTOFIX_POINT_OUTSIDE) throw;
        insert_by_voxels(scan, origin, maxrange, lazy, in_box);
    }
}

/// A scan by an edit of each voxel.
inline void OcTreeOccupancy::insert_by_voxels(const Pointcloud &scan, const point3d &origin,
                                              double maxrange, bool lazy, bool in_box) {
    KeySet free_cells, occupied_cells;
    find_update(scan, origin, free_cells, occupied_cells, maxrange, in_box);
    for (const OcTreeKey &it : free_cells) updateNode(it, false, lazy);
    for (const OcTreeKey &it : occupied_cells) updateNode(it, true, lazy);
}

/// What the library does with a scan from outside the map: it hits the ends, and frees nothing.
inline void OcTreeOccupancy::hit_ends(const Pointcloud &scan, const point3d &origin,
                                      double maxrange, bool lazy, bool in_box) {
    KeySet ends;
    OcTreeKey key;
    for (const point3d &p : scan)
        if (is_in_range(origin, p, maxrange) && (!in_box || inBBX(p)) && coordToKeyChecked(p, key))
            ends.insert(key);
    for (const OcTreeKey &end : ends) updateNode(end, true, lazy);
}

// Rays.

inline point OcTreeOccupancy::far_end(const point &from, const point3d &direction,
                                      double max_range) const {
    const double length = direction.norm();
    if (!(length > 0) || std::isinf(length)) return from;
    const std::int64_t low = -32768 * edge(), high = 32768 * edge() - 1;
    const std::int64_t start[3] = {from.x, from.y, from.z};
    double way = max_range > 0 ? max_range * 1e9 : std::numeric_limits<double>::infinity();
    for (unsigned axis = 0; axis < 3; ++axis) {
        const double part = direction(axis) / length;
        if (part == 0) continue;
        const std::int64_t border = part > 0 ? high : low;
        way = std::fmin(way, static_cast<double>(border - start[axis]) / part);
    }
    std::int64_t reached[3];
    for (unsigned axis = 0; axis < 3; ++axis) {
        const double part = direction(axis) / length;
        const std::int64_t there = start[axis] + std::llrint(way * part);
        reached[axis] = std::max(low, std::min(high, there));
    }
    return {reached[0], reached[1], reached[2]};
}

inline bool OcTreeOccupancy::castRay(const point3d &origin, const point3d &direction, point3d &end,
                                     bool ignore_unknown, double max_range) const {
    OcTreeKey key;
    if (!coordToKeyChecked(origin, key)) return false;
    const point from = exact(origin), to = far_end(from, direction, max_range);
    const stop first = exact_map().cast(from, to, ignore_unknown);
    if (first.code == OCTOFIX_CLEAR)
        coordToKeyChecked(detail::in_metres(to.x), detail::in_metres(to.y),
                          detail::in_metres(to.z), key);
    else
        key = {first.key.x, first.key.y, first.key.z};
    end = keyToCoord(key);
    return first.code == OCTOFIX_DONE;
}

inline bool OcTreeOccupancy::computeRayKeys(const point3d &origin, const point3d &end,
                                            KeyRay &ray) const {
    ray.reset();
    OcTreeKey key;
    if (!coordToKeyChecked(origin, key) || !coordToKeyChecked(end, key)) return false;
    std::vector<voxel_key> met = octofix::ray(getResolution(), exact(origin), exact(end));
    met.pop_back();
    for (const voxel_key &it : met) ray.addKey({it.x, it.y, it.z});
    return true;
}

inline bool OcTreeOccupancy::computeRay(const point3d &origin, const point3d &end,
                                        std::vector<point3d> &ray) const {
    KeyRay keys;
    if (!computeRayKeys(origin, end, keys)) return false;
    ray.clear();
    for (const OcTreeKey &key : keys) ray.push_back(keyToCoord(key));
    return true;
}

inline bool OcTreeOccupancy::getRayIntersection(const point3d &origin, const point3d &direction,
                                                const point3d &center, point3d &intersection,
                                                double delta) const {
    const double half = getResolution() / 2;
    double nearest = std::numeric_limits<double>::infinity();
    for (unsigned axis = 0; axis < 3; ++axis)
        for (const double side : {-half, half}) {
            if (direction(axis) == 0) continue;
            const double t = (center(axis) + side - origin(axis)) / direction(axis);
            bool enters = t >= 0 && t < nearest;
            for (unsigned other = 0; other < 3; ++other) {
                const double off = origin(other) + t * direction(other) - center(other);
                enters = enters && (other == axis || std::fabs(off) <= half * (1 + 1e-6));
            }
            if (enters) nearest = t;
        }
    if (std::isinf(nearest)) return false;
    intersection = origin + direction * static_cast<float>(nearest - delta);
    return true;
}

} // namespace octofix

#endif
