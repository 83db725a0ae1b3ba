// Scans shared out among regions, which are cut where beams go. Part of octofix_mapper.hpp.
#ifndef OCTOFIX_REGIONS_HPP
#define OCTOFIX_REGIONS_HPP

#include "../octofix.hpp"
#include "cuts.h"

#include <algorithm>
#include <array>
#include <cstddef>
#include <cstdint>
#include <optional>
#include <utility>
#include <vector>

namespace octofix::detail {

/// What a sensor saw, and how it is to be done. Its points are turned in double by a quaternion,
/// where there is one, or else as its pose says.
struct sighting {
    pose sensor;
    std::optional<quaternion> by;
    scan_options how;
    std::vector<point> points;
};

/// Whether the points of a sighting are beams along the axes of the map.
inline bool is_upright(const sighting &it) {
    return !it.by && it.sensor.x == 0 && it.sensor.y == 0 && it.sensor.z == 0;
}

/// What was seen, along the axes of the map, so that points are turned once for all regions. What
/// can't be turned stays as it is: it is refused, or points are 10,000 km away.
inline sighting upright(sighting seen) {
    if (const auto by = std::exchange(seen.by, std::nullopt))
        return {upright_at(seen.sensor.at), {}, seen.how, turned_ways(*by, seen.points)};
    if (is_upright(seen)) return seen;
    const pose &from = seen.sensor;
    const std::size_t size = seen.points.size();
    std::vector<point> ways(size + 1);
    details named{};
    const pose turn = {{0, 0, 0}, from.w, from.x, from.y, from.z};
    if (octofix_place(&turn, start<point>(seen.points), size, ways.data(), size, &named) != 0)
        return seen;
    ways.pop_back();
    constexpr std::int64_t reach = 10'000'000'000'000'000;
    const auto is_far = [](std::int64_t it) { return it >= reach || it <= -reach; };
    for (const point &it : ways)
        if (is_far(it.x) || is_far(it.y) || is_far(it.z)) return seen;
    return {upright_at(from.at), {}, seen.how, std::move(ways)};
}

/// Whether no map with the settings refuses the points of a scan, but one that is full, as far as
/// is soon seen.
inline bool is_safe(const sighting &seen, const settings &its) {
    return octofix_is_safe(seen.sensor.at, !is_upright(seen), start<point>(seen.points),
                           seen.points.size(), its.res, range_of(seen.how.range),
                           its.limits.max_cells);
}

/// Adds samples of so many beams of a scan, of voxels with this edge in nanometres.
inline void add_samples(std::vector<octofix_sample> &all, const sighting &seen, std::int64_t edge,
                        std::size_t beams) {
    const std::size_t count = seen.points.size(), taken = std::min(count, beams);
    sighting few{seen.sensor, seen.by, seen.how, {}};
    for (std::size_t i = 0; i < taken; ++i)
        few.points.push_back(seen.points[octofix_picked(i, count)]);
    few = upright(std::move(few));
    if (!is_upright(few)) return;
    all.resize(all.size() + taken);
    octofix_add_samples(all.data() + all.size() - taken, few.sensor.at, few.points.data(), taken,
                        count, edge, range_of(few.how.range), 1);
}

/// Regions that are the whole together, and the tree of cuts between them.
class cuts {
  public:
    /// So many regions, each with about as much to do.
    cuts(const std::vector<octofix_sample> &samples, std::size_t count)
        : tree_(2 * count), regions_(count) {
        std::vector<octofix_inside> inside(samples.size() + 1);
        std::vector<double> sums(OCTOFIX_VOXELS);
        octofix_cutting it{};
        it.samples = samples.data(), it.count = samples.size(), it.only = -1;
        it.inside = inside.data(), it.sums = sums.data();
        it.cuts = tree_.data(), it.regions = regions_.data();
        octofix_cut_all(&it, count);
    }
    const std::vector<octofix_region> &regions() const { return regions_; }

    /// For each region the numbers of the beams of a scan along the axes of the map that come near
    /// to it.
    std::vector<std::vector<std::size_t>> near(const sighting &seen, std::int64_t edge) const {
        std::vector<std::vector<std::size_t>> all(regions_.size());
        octofix_part_beams(
            tree_.data(), seen.sensor.at, start<point>(seen.points), seen.points.size(), edge,
            range_of(seen.how.range),
            [](void *who, std::int32_t region, std::size_t beam) {
                auto &found = *static_cast<std::vector<std::vector<std::size_t>> *>(who);
                found[static_cast<std::size_t>(region)].push_back(beam);
            },
            &all);
        return all;
    }

  private:
    std::vector<octofix_cut> tree_;
    std::vector<octofix_region> regions_;
};

/// A scan, and what each region's map needs of it: the beams that may go through a voxel of it.
class shared_scan {
  public:
    explicit shared_scan(sighting seen) : seen_(std::move(seen)) {}

    /// Turns it, and shares it out. (All regions do what can't be turned whole.)
    void share_out(const cuts &by, std::int64_t edge) {
        seen_ = upright(std::move(seen_));
        if (is_upright(seen_)) numbers_ = by.near(seen_, edge);
    }
    /// Does in a region's map what it needs.
    void scan(map &world, std::size_t region) const {
        if (numbers_.empty()) return void(world.scan(seen_.sensor, seen_.points, seen_.how));
        std::vector<point> points;
        points.reserve(numbers_[region].size());
        for (const std::size_t it : numbers_[region]) points.push_back(seen_.points[it]);
        world.scan(seen_.sensor, points, seen_.how);
    }

  private:
    sighting seen_;
    std::vector<std::vector<std::size_t>> numbers_;
};

/// The middle of a voxel, counted from the origin.
inline point middle_of(const std::int32_t (&voxel)[3], std::int64_t edge) {
    const auto middle = [&](std::int32_t it) { return it * edge + edge / 2; };
    return {middle(voxel[0]), middle(voxel[1]), middle(voxel[2])};
}

/// From now on a map's scans change only this region.
inline void limit(map &world, const octofix_region &to) {
    const std::int64_t edge = world.settings().res;
    world.limit(middle_of(to.low, edge), middle_of(to.high, edge));
}

} // namespace octofix::detail

#endif
