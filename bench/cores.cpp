// cores RUNS THREADS..: makes maps of scans in a hall and of a lidar in a street, at 0.05 m, by one
// map and by octofix::mapper with so many threads, and compares them. Times are those that a
// processor has spent in a thread, medians of so many runs. Linked with
// --wrap=octofix_scan,--wrap=octofix_merge. Fails where a map differs, or where a speed-up is below
// its limit.
#include <octofix_mapper.hpp>

#include <algorithm>
#include <cstdio>
#include <cstdlib>
#include <cstring>
#include <ctime>
#include <map>
#include <mutex>
#include <random>
#include <string>

namespace {

struct merge {
    const void *map, *other;
    double seconds;
};

std::mutex lock;
std::map<std::thread::id, double> scanning; // seconds of each thread
std::map<const void *, double> mapping;     // of each map
std::vector<merge> merges;                  // in their order

double seconds_of(clockid_t clock) {
    timespec now{};
    clock_gettime(clock, &now);
    return static_cast<double>(now.tv_sec) + 1e-9 * static_cast<double>(now.tv_nsec);
}
double seconds_of_thread() { return seconds_of(CLOCK_THREAD_CPUTIME_ID); }
double seconds_of_all_threads() { return seconds_of(CLOCK_PROCESS_CPUTIME_ID); }

/// What a map is known by, also when its handle has been moved.
const void *key_of(const octofix_map *map) {
    const void *key = nullptr;
    std::memcpy(&key, map, sizeof key);
    return key;
}

} // namespace

extern "C" std::uint32_t __real_octofix_scan(octofix_map *, const octofix_pose *,
                                             const octofix_point *, std::size_t,
                                             const octofix_scan_options *, octofix_counted *,
                                             octofix_details *);
extern "C" std::uint32_t __wrap_octofix_scan(octofix_map *map, const octofix_pose *pose,
                                             const octofix_point *points, std::size_t count,
                                             const octofix_scan_options *options,
                                             octofix_counted *counted, octofix_details *details) {
    const double began = seconds_of_thread();
    const std::uint32_t code =
        __real_octofix_scan(map, pose, points, count, options, counted, details);
    const double spent = seconds_of_thread() - began;
    const std::lock_guard<std::mutex> held(lock);
    scanning[std::this_thread::get_id()] += spent;
    mapping[key_of(map)] += spent;
    return code;
}

extern "C" std::uint32_t __real_octofix_merge(octofix_map *, octofix_map *, std::uint32_t,
                                              octofix_details *);
extern "C" std::uint32_t __wrap_octofix_merge(octofix_map *map, octofix_map *other,
                                              std::uint32_t rule, octofix_details *details) {
    const double began = seconds_of_thread();
    const std::uint32_t code = __real_octofix_merge(map, other, rule, details);
    const double spent = seconds_of_thread() - began;
    const std::lock_guard<std::mutex> held(lock);
    merges.push_back({key_of(map), key_of(other), spent});
    return code;
}

namespace {

using vector = std::array<double, 3>;

struct look {
    octofix::pose from;
    std::vector<octofix::point> points;
    octofix::scan_options how;
};

/// Where a beam that begins in a room ends, at its walls, with noise; from its beginning.
octofix::point wall(const vector &from, const vector &way, const vector &low, const vector &high,
                    double noise) {
    double reach = 1e9;
    for (std::size_t i = 0; i < 3; ++i)
        if (way[i] != 0) reach = std::min(reach, ((way[i] > 0 ? high : low)[i] - from[i]) / way[i]);
    reach *= 1 + noise;
    return octofix::metres(way[0] * reach, way[1] * reach, way[2] * reach);
}

/// A sensor walks 12 m through a hall of 24 x 16 x 4 m: 30 scans of 20,000 points.
std::vector<look> hall() {
    std::mt19937 random(1);
    std::uniform_real_distribution<double> turn(0, 6.283185307179586), height(-0.8, 0.8);
    std::normal_distribution<double> noise(0, 0.001);
    std::vector<look> all;
    for (int i = 0; i < 30; ++i) {
        const vector from = {-6 + 12 * i / 29.0, 1.3 * std::sin(i / 4.0), 1.2};
        look it{octofix::pose_at(from[0], from[1], from[2]), {}, {}};
        for (int j = 0; j < 20000; ++j) {
            const double angle = turn(random), up = height(random), flat = std::sqrt(1 - up * up);
            it.points.push_back(wall(from, {flat * std::cos(angle), flat * std::sin(angle), up},
                                     {-12.013, -8.013, -0.013}, {12.013, 8.013, 4.013},
                                     noise(random)));
        }
        all.push_back(std::move(it));
    }
    return all;
}

/// A lidar of 64 rings goes 9 m along a street: 10 scans of 89,984 points, of up to 30 m.
std::vector<look> street() {
    constexpr int rings = 64, columns = 1406;
    std::mt19937 random(1);
    std::normal_distribution<double> noise(0, 0.0005);
    std::vector<look> all;
    for (int i = 0; i < 10; ++i) {
        const vector from = {-5.0 + i, 0.4 * std::sin(i / 3.0), 1.7};
        look it{octofix::pose_at(from[0], from[1], from[2]), {}, {}};
        it.how.range = 30;
        for (int j = 0; j < rings * columns; ++j) {
            const double up = (-25 + 40.0 * (j / columns) / (rings - 1)) / 57.29577951308232;
            const double angle = 1e-3 + 6.283185307179586 * (j % columns) / columns;
            it.points.push_back(wall(from,
                                     {std::cos(up) * std::cos(angle),
                                      std::cos(up) * std::sin(angle), std::sin(up)},
                                     {-60, -9.013, 0}, {60, 9.013, 12}, noise(random)));
        }
        all.push_back(std::move(it));
    }
    return all;
}

constexpr octofix::limits most = {std::uint64_t{1} << 26, std::uint64_t{1} << 27};

/// What a map took, in seconds. One processor alone: all of it in `mapped`.
struct spans {
    double begun = 0;   ///< of the thread that adds the scans and cuts the regions
    double shared = 0;  ///< of all threads, but for scans and merges
    double longest = 0; ///< scans of the region with most of them
    double mapped = 0;  ///< until all scans are done, if as many processors share what there is
    double merged = 0;  ///< and the merges behind them, which wait for each other
};

/// Reckons how long so many processors take. (What isn't done for a region is done by the threads
/// that are ahead.)
spans reckoned(unsigned threads, double begun, double all) {
    spans found;
    double scans = 0, merging = 0;
    for (const auto &[thread, seconds] : scanning) {
        if (thread == std::this_thread::get_id()) continue;
        scans += seconds;
        found.longest = std::max(found.longest, seconds);
    }
    for (const merge &it : merges) merging += it.seconds;
    found.begun = begun;
    found.shared = all - begun - scans - merging;
    const double even = (scans + found.shared) / threads;
    found.mapped = begun + std::max(found.longest, even);
    auto ready = mapping;
    for (auto &[map, seconds] : ready) seconds = begun + std::max(seconds, even);
    for (const merge &it : merges) {
        ready[it.map] = std::max(ready[it.map], ready[it.other]) + it.seconds;
        found.merged = std::max(found.merged, ready[it.map]);
    }
    return found;
}

/// The spans of maps of one scene in each run, by the number of threads; by 1 alone.
using times = std::map<unsigned, std::vector<spans>>;

/// Makes the map by one thread, and then by each number of threads; whether all are the same.
bool run(const std::vector<look> &all, const std::vector<unsigned> &threads, times &taken) {
    octofix::map world(0.05, octofix::default_odds, most);
    scanning.clear();
    for (const look &it : all) world.scan(it.from, it.points, it.how);
    spans alone;
    alone.mapped = alone.merged = scanning[std::this_thread::get_id()];
    taken[1].push_back(alone);
    const octofix::bytes wanted = world.snapshot();
    bool is_same = true;
    for (const unsigned number : threads) {
        scanning.clear(), mapping.clear(), merges.clear();
        const double began = seconds_of_all_threads(), thread_began = seconds_of_thread();
        octofix::mapper mapper(0.05, octofix::default_odds, most, number);
        for (const look &it : all) mapper.add(it.from, it.points, it.how);
        const octofix::map came = mapper.finish();
        taken[number].push_back(reckoned(number, seconds_of_thread() - thread_began,
                                         seconds_of_all_threads() - began));
        is_same &= came.snapshot() == wanted;
    }
    return is_same;
}

double median(const std::vector<spans> &all, double spans::*which) {
    std::vector<double> found;
    for (const spans &it : all) found.push_back(it.*which);
    std::sort(found.begin(), found.end());
    return found[found.size() / 2];
}

/// Whether so many threads are as fast as they should be.
bool is_fast(const char *name, const times &taken, unsigned threads) {
    const std::vector<spans> &all = taken.at(threads);
    const double alone = median(taken.at(1), &spans::mapped);
    const double mapped = alone / median(all, &spans::mapped);
    const double merged = alone / median(all, &spans::merged);
    const double least = threads >= 16 ? 10 : threads >= 8 ? 6 : threads >= 4 ? 3 : 1.5;
    const double least_merged = threads >= 8 ? 4 : threads >= 4 ? 2.8 : 1.5;
    std::printf("%s, one map %.2f s, %u threads: begun in %.2f s, shared out in %.2f s, scans of "
                "the longest %.2f s; mapped %.1f times as fast (at least %.1f), merged %.1f "
                "(%.1f)\n",
                name, alone, threads, median(all, &spans::begun), median(all, &spans::shared),
                median(all, &spans::longest), mapped, least, merged, least_merged);
    return mapped >= least && merged >= least_merged;
}

} // namespace

int main(int count, char **words) {
    if (count < 3) return 2;
    std::vector<unsigned> threads;
    for (int i = 2; i < count; ++i) threads.push_back(static_cast<unsigned>(std::atoi(words[i])));
    bool is_right = true;
    for (const bool is_hall : {true, false}) {
        const char *name = is_hall ? "hall" : "street";
        const std::vector<look> all = is_hall ? hall() : street();
        times taken;
        for (int i = 0; i < std::atoi(words[1]); ++i) {
            if (run(all, threads, taken)) continue;
            std::printf("%s: another map\n", name);
            is_right = false;
        }
        for (const unsigned number : threads) is_right &= is_fast(name, taken, number);
        std::fflush(stdout);
    }
    return is_right ? 0 : 1;
}
