// The calls that bench/python_speed.py measures, in C++ on points that are ready: each function
// answers the nanoseconds of processor time that one round takes, of this thread alone.
#include <octofix.hpp>

#include <cstdlib>
#include <ctime>
#include <vector>

namespace {

double now() {
    timespec it{};
    clock_gettime(CLOCK_THREAD_CPUTIME_ID, &it);
    return static_cast<double>(it.tv_sec) * 1e9 + static_cast<double>(it.tv_nsec);
}

template <class Call> double time_of(std::size_t rounds, Call call) {
    const double before = now();
    for (std::size_t it = 0; it < rounds; it++) call();
    return (now() - before) / static_cast<double>(rounds);
}

volatile std::size_t kept; // so that no call is left out

octofix::view<octofix::point> row(const octofix::point *points, std::size_t count) {
    return {points, count};
}

} // namespace

extern "C" {

octofix::map *open_map(const std::uint8_t *bytes, std::size_t length) {
    return new octofix::map(octofix::map::from_snapshot(octofix::bytes(bytes, bytes + length)));
}
void close_map(octofix::map *world) { delete world; }

double get(octofix::map *world, const octofix::point *at, std::size_t, std::size_t rounds) {
    return time_of(rounds, [&] { kept = world->get(*at).has_value(); });
}
double set(octofix::map *world, const octofix::point *at, std::size_t, std::size_t rounds) {
    return time_of(rounds, [&] { world->set(*at, 5); });
}
double cast(octofix::map *world, const octofix::point *way, std::size_t, std::size_t rounds) {
    return time_of(rounds, [&] { kept = world->cast(way[0], way[1]).code; });
}
double scan(octofix::map *world, const octofix::point *points, std::size_t count,
            std::size_t rounds) {
    const octofix::pose here{{50000000, 50000000, 50000000}, 1, 0, 0, 0};
    return time_of(rounds, [&] { kept = world->scan(here, row(points, count)).hits; });
}
double new_scan(octofix::map *, const octofix::point *points, std::size_t count,
                std::size_t rounds) {
    const octofix::pose here{{50000000, 50000000, 50000000}, 1, 0, 0, 0};
    return time_of(rounds, [&] {
        octofix::map other(0.1);
        kept = other.scan(here, row(points, count)).hits;
    });
}
double get_all(octofix::map *world, const octofix::point *points, std::size_t count,
               std::size_t rounds) {
    return time_of(rounds, [&] { kept = world->get_all(row(points, count)).size(); });
}
double set_all(octofix::map *world, const octofix::point *points, std::size_t count,
               std::size_t rounds) {
    std::vector<octofix_point_edit> edits(count);
    for (std::size_t it = 0; it < count; it++) edits[it] = {points[it], OCTOFIX_SET, 5};
    // (edit_all of a map makes these of its own)
    const octofix::bytes snapshot = world->snapshot();
    octofix_map plain{};
    const octofix_odds odds = OCTOFIX_DEFAULT_ODDS;
    const octofix_limits limits = OCTOFIX_DEFAULT_LIMITS;
    octofix_details named{};
    octofix_open(&plain, 100000000, &odds, &limits, &named);
    octofix_restore(&plain, snapshot.data(), snapshot.size(), &named);
    const auto edit = [&] {
        std::size_t done = 0;
        octofix_edit_all(&plain, edits.data(), count, false, &done, &named);
        kept = done;
    };
    edit(); // (by then the map has all voxels)
    const double took = time_of(rounds, edit);
    octofix_close(&plain);
    return took;
}
double cast_all(octofix::map *world, const octofix::point *points, std::size_t count,
                std::size_t rounds) {
    std::vector<octofix::segment> ways(count);
    const octofix::point here{50000000, 50000000, 50000000};
    for (std::size_t it = 0; it < count; it++) ways[it] = {here, points[it]};
    return time_of(rounds, [&] { kept = world->cast_all(ways).size(); });
}
}
