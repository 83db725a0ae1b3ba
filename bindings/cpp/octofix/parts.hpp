// Scans whose beams meet more voxels than one call takes. Part of octofix.hpp.
#ifndef OCTOFIX_PARTS_HPP
#define OCTOFIX_PARTS_HPP

#include "../octofix.hpp"

#include <cstddef>
#include <cstdint>

namespace octofix {
namespace detail {

/// Gives a map the update box of another one.
inline void limit_as(map &to, const map &from) {
    const std::int64_t res = from.settings().res;
    if (const auto window = from.window())
        to.limit(point_of(window->low, res), point_of(window->high, res));
}

/// Adds a number to each voxel of a block; while a mark stands by parts of it, of which each has as
/// many voxels as an edit may have then.
inline void add_to_block(map &to, const block &it, std::int32_t number) {
    constexpr std::uint16_t largest_tracked = 10; // 64 x 64 x 64 voxels
    const settings now = to.settings();
    if (!now.is_tracked || it.depth >= largest_tracked)
        return to.edit_box(point_of(low(it), now.res), point_of(high(it), now.res), event::add,
                           number);
    for (unsigned i = 0; i < 8; ++i) {
        const auto part = [&](std::uint16_t b, unsigned axis) {
            return static_cast<std::uint16_t>(2 * b + (i >> axis & 1));
        };
        const auto depth = static_cast<std::uint16_t>(it.depth + 1);
        add_to_block(to, {depth, part(it.x, 0), part(it.y, 1), part(it.z, 2), 0}, number);
    }
}

/// What a scan hits and frees, as a map of its own: occupied is what a beam hits, though others
/// meet it, and free is what beams meet alone.
class gathered_scan {
  public:
    explicit gathered_scan(const map &world)
        : own_(world.resolution(), of_scan, world.settings().limits) {
        limit_as(own_, world);
    }

    /// Does the beams from one point on by `scan`, which answers a code and what it names, in as
    /// many parts as it takes.
    template <class Scan> void add(view<point> points, std::size_t first, Scan scan) {
        details named{};
        const std::uint32_t code = scan(own_, points, named);
        if (code == OCTOFIX_TOO_MANY_CELLS && points.size() > 1) {
            const std::size_t half = points.size() / 2;
            add({points.data(), half}, first, scan);
            return add({points.data() + half, points.size() - half}, first + half, scan);
        }
        if (code == OCTOFIX_TOO_MANY_CELLS || code == OCTOFIX_POINT_OUTSIDE) named.first += first;
        check(code, named, true);
        // (before misses could outweigh a hit)
        if (++parts_ % (std::uint64_t{1} << 19) == 0) own_.max_likelihood();
    }
    /// All beams are done.
    void finish() { own_.max_likelihood(); }

    counted voxels() const {
        return {count(own_.leaves(sought::occupied)), count(own_.leaves(sought::free))};
    }
    /// Does to a map what the scan does, each block of voxels at once.
    void apply(map &to, std::int32_t hit, std::int32_t miss) const {
        for (const block &it : own_.leaves(sought::free)) add_to_block(to, it, miss);
        for (const block &it : own_.leaves(sought::occupied)) add_to_block(to, it, hit);
    }

  private:
    static constexpr odds of_scan = {1000000, -1, -1, 1000000, 0};

    static std::uint64_t count(view<block> blocks) {
        std::uint64_t voxels = 0;
        for (const block &it : blocks) voxels += std::uint64_t{1} << 3 * (16 - it.depth);
        return voxels;
    }
    map own_;
    std::uint64_t parts_ = 0;
};

} // namespace detail

template <class Call, class Sensor>
counted map::scanned_in_parts(Call call, const Sensor &sensor, view<point> points,
                              const octofix_scan_options &options) {
    octofix_scan_options part = options;
    part.hit = part.miss = 0;
    part.lazy = true;
    detail::gathered_scan seen(*this);
    seen.add(points, 0, [&](map &own, view<point> some, details &named) {
        counted unused{};
        return call(own.handle(), &sensor, some.data(), some.size(), &part, &unused, &named);
    });
    seen.finish();
    const octofix::settings now = settings();
    const bool has_own = options.hit != 0 || options.miss != 0;
    const std::int32_t hit = has_own ? options.hit : now.odds.hit;
    const std::int32_t miss = has_own ? options.miss : now.odds.miss;
    // (in another map, so that this one is as it was where that is refused)
    map after(resolution(), now.odds, now.limits);
    detail::limit_as(after, *this);
    after.merge(*this);
    seen.apply(after, hit, miss);
    if (now.is_tracked)
        seen.apply(*this, hit, miss);
    else
        *this = std::move(after);
    return seen.voxels();
}

} // namespace octofix

#endif
