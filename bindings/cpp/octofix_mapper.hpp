// octofix_mapper.hpp: a map that several threads make of scans.
//
//     octofix::mapper mapper(0.05);                      // a thread for each core
//     for (..) mapper.add(pose, octofix::metres(cloud));
//     octofix::map world = mapper.finish();              // that of one thread, to the voxel
//
// Each thread has a map of a region, in which it does the beams of all scans that come near to it.
// A scan is turned and shared out once for all of them, by whichever thread is ahead. In finish() a
// thread that is done merges its map with that of another one that is, while the others still map.
// The regions are cut where the first scans walk through most, before which no scan is done; the
// later ones are done as fast where they go there, too.
#ifndef OCTOFIX_MAPPER_HPP
#define OCTOFIX_MAPPER_HPP

#include "octofix.hpp"
#include "octofix/crew.hpp"
#include "octofix/regions.hpp"

#include <algorithm>
#include <cstddef>
#include <exception>
#include <memory>
#include <mutex>
#include <optional>
#include <stdexcept>
#include <thread>
#include <utility>
#include <vector>

namespace octofix {

namespace detail {

/// Joins two maps of which no voxel is known in both in the first, in one with more room where that
/// is needed, and closes the second. The larger one takes the smaller, since a merge costs by the
/// groups of the one that is taken.
inline void take(map &one, map &other) {
    map taken(std::move(other));
    if (one.memory() < taken.memory()) std::swap(one, taken);
    try {
        return one.merge(taken);
    } catch (const refused &why) {
        if (why.code() != OCTOFIX_FULL) throw;
    }
    settings now = one.settings();
    now.limits.max_groups = std::uint64_t{1} << 26;
    map roomy(one.resolution(), now.odds, now.limits);
    roomy.merge(one);
    roomy.merge(taken);
    one = std::move(roomy);
}

} // namespace detail

/// Makes a map by several threads. Its calls come from one thread at a time.
class mapper {
  public:
    /// A map of voxels of res metres by so many threads; 0 takes one for each core. The limits are
    /// those of each region's map; together they may have 2^26 groups. The regions are cut by the
    /// first scans that have so many points.
    explicit mapper(double res, const odds &log_odds = default_odds,
                    const limits &most = default_limits, unsigned threads = 0,
                    std::size_t points_to_cut_by = std::size_t{1} << 20)
        : threads_(threads ? threads : std::max(1u, std::thread::hardware_concurrency())),
          points_to_cut_by_(points_to_cut_by), log_odds_(log_odds), most_(most),
          judge_(res, log_odds, most) {
        constexpr std::int32_t last = OCTOFIX_HIGHEST;
        if (threads_ > 1) detail::limit(judge_, {{last, last, last}, {last, last, last}});
    }
    /// The same by so many threads, with the log-odds and limits of a map().
    mapper(double res, unsigned threads) : mapper(res, default_odds, default_limits, threads) {}
    /// The same of a float, which stands for the decimal that it prints.
    template <class Float, class = detail::if_float<Float>, class... Rest>
    explicit mapper(Float res, const Rest &...rest) : mapper(detail::decimal_of(res), rest...) {}
    mapper(const mapper &) = delete;
    mapper &operator=(const mapper &) = delete;
    /// Ends the threads, each after the scan that it is doing.
    ~mapper() = default;

    /// Does a scan as map::scan, which may last until earlier ones are done. What each region
    /// refuses throws refused at once, and isn't done. Where one has no room, or memory runs out,
    /// others may have done the scan: this call, or a later one, throws that, and each after it.
    void add(const pose &sensor, std::vector<point> points, const scan_options &how = {}) {
        add({sensor, std::nullopt, how, std::move(points)});
    }

    /// The same, with points that are turned in double.
    void add(const turned_pose &sensor, std::vector<point> points, const scan_options &how = {}) {
        add({detail::upright_at(sensor.at), sensor.by, how, std::move(points)});
    }

    /// The map of all scans. There are no more after it.
    map finish() {
        check();
        if (threads_ > 1)
            try_it([&] {
                if (!crew_) begin();
                crew_->finish();
                joined_->no_limit();
            });
        is_finished_ = true;
        return std::move(threads_ > 1 ? *joined_ : judge_);
    }

  private:
    using crew = detail::crew<detail::shared_scan>;

    static constexpr std::size_t beams_to_cut_by = std::size_t{1} << 12;

    /// Throws where the map is given away, and what an earlier call has thrown midway.
    void check() const {
        if (is_finished_) throw std::logic_error("the mapper has given its map away");
        if (fault_) std::rethrow_exception(fault_);
    }
    /// Does what leaves some scans undone, or done in some regions alone, where it throws.
    template <class Work> void try_it(Work work) {
        try {
            work();
        } catch (...) {
            fault_ = std::current_exception();
            throw;
        }
    }
    void add(detail::sighting seen) {
        check();
        if (threads_ == 1 || !is_safe(seen)) {
            try_it([&] { seen = detail::upright(std::move(seen)); });
            judge_.scan(seen.sensor, seen.points, seen.how);
        }
        if (threads_ > 1) try_it([&] { accept(std::move(seen)); });
    }
    /// Whether no region refuses a scan, but one that is full, as far as is soon seen: without its
    /// points the judge does it.
    bool is_safe(const detail::sighting &seen) {
        try {
            judge_.scan(seen.sensor, std::vector<point>{}, seen.how);
        } catch (const refused &) {
            return false; // (what it is refused for then may be another thing)
        }
        return detail::is_safe(seen, judge_.settings());
    }
    void accept(detail::sighting seen) {
        if (crew_) return put(std::move(seen));
        points_ += seen.points.size();
        first_.push_back(std::move(seen));
        if (points_ >= points_to_cut_by_) begin();
    }
    /// Cuts the regions, and has the scans done that have waited for that.
    void begin() {
        const double res = judge_.resolution();
        cuts_.emplace(samples(), threads_);
        for (const octofix_region &it : cuts_->regions()) {
            maps_.emplace_back(res, log_odds_, most_);
            detail::limit(maps_.back(), it);
        }
        std::vector<crew::task> tasks;
        for (std::size_t i = 0; i < maps_.size(); ++i)
            tasks.push_back([this, i](const detail::shared_scan &it) { it.scan(maps_[i], i); });
        const std::int64_t edge = judge_.settings().res;
        crew_ = std::make_unique<crew>(
            std::move(tasks), [this, edge](detail::shared_scan &it) { it.share_out(*cuts_, edge); },
            [this](std::size_t i) { join(std::move(maps_[i])); });
        for (detail::sighting &it : std::exchange(first_, {})) put(std::move(it));
    }
    std::vector<octofix_sample> samples() const {
        const std::size_t each = beams_to_cut_by / (first_.size() + 1) + 1;
        std::vector<octofix_sample> found;
        for (const detail::sighting &it : first_)
            detail::add_samples(found, it, judge_.settings().res, each);
        return found;
    }
    void put(detail::sighting seen) {
        const std::size_t size = seen.points.size();
        crew_->put(std::make_unique<detail::shared_scan>(std::move(seen)), size);
    }
    /// Merges a map with those that other threads have laid down, and lays it down itself where
    /// there is none.
    void join(map own) {
        while (std::optional<map> other = taken_or_laid(own)) detail::take(own, *other);
    }
    /// The map that lies there; or that place takes this one.
    std::optional<map> taken_or_laid(map &own) {
        const std::lock_guard<std::mutex> held(joining_);
        std::optional<map> there = std::exchange(joined_, std::nullopt);
        if (!there) joined_ = std::move(own);
        return there;
    }

    unsigned threads_;
    std::size_t points_to_cut_by_;
    odds log_odds_;
    limits most_;
    map judge_; // refuses what each region does; of one thread the map itself
    std::vector<detail::sighting> first_;
    std::size_t points_ = 0;
    bool is_finished_ = false;
    std::exception_ptr fault_;
    std::optional<detail::cuts> cuts_;
    std::vector<map> maps_;
    std::mutex joining_;
    std::optional<map> joined_; // of threads that are done
    std::unique_ptr<crew> crew_; // (it ends before the maps do)
};

} // namespace octofix

#endif
