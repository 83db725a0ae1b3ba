// What octofix::mapper makes of scans by several threads: the map of one thread, byte for byte; and
// what it throws.
#include <octofix_mapper.hpp>

#include <algorithm>
#include <array>
#include <atomic>
#include <chrono>
#include <cstdio>
#include <cstdlib>
#include <new>
#include <optional>
#include <random>
#include <string>

/// How many requests of this thread are granted before one that isn't; none isn't where it is
/// below 0.
thread_local long granted_first = -1;

void *operator new(std::size_t size) {
    if (granted_first >= 0 && granted_first-- == 0) throw std::bad_alloc();
    if (void *found = std::malloc(size)) return found;
    throw std::bad_alloc();
}
[[gnu::noinline]] void operator delete(void *it) noexcept { std::free(it); }
[[gnu::noinline]] void operator delete(void *it, std::size_t) noexcept { std::free(it); }

namespace {

int failed = 0;

void expect(int line, bool holds) {
    if (holds) return;
    failed++;
    std::printf("line %d doesn't hold\n", line);
}

#define EXPECT(what) expect(__LINE__, what)

using octofix::metres;

struct look {
    octofix::pose from;
    std::vector<octofix::point> points;
    octofix::scan_options how;
};

std::vector<octofix::point> cloud(std::mt19937 &random, std::size_t size) {
    std::normal_distribution<double> draw(0, 3);
    std::vector<octofix::point> points;
    for (std::size_t i = 0; i < size; ++i)
        points.push_back(metres(draw(random), draw(random), draw(random)));
    return points;
}

/// Scans of all kinds: turned, cut, lazy, with log-odds of their own, without points, and such as
/// are refused.
std::vector<look> looks(unsigned seed) {
    std::mt19937 random(seed);
    std::uniform_real_distribution<double> draw(-1, 1);
    std::vector<look> all;
    for (unsigned i = 0; i < 8; ++i) {
        const octofix::point at = metres(4 * draw(random), 4 * draw(random), draw(random));
        look it{octofix::turned(at, draw(random), draw(random), draw(random), draw(random)),
                cloud(random, random() % 60), {}};
        if (i % 3 == 1) it.how.range = 2 + draw(random);
        if (i % 4 == 2) it.how.hit = 300, it.how.miss = -200;
        it.how.lazy = i % 2 == seed % 2;
        all.push_back(it);
    }
    return all;
}

/// Scans that are refused: by the place of the sensor, a point, the quaternion or the log-odds,
/// some by several, of which the first counts; and two of points so far away that they can't be
/// turned beforehand, the second of which isn't refused.
std::vector<look> refused_looks() {
    constexpr std::int64_t far = 10'000'000'000'000'000, less = far - 1;
    const octofix::pose turned = {metres(1, 0, 0), 3, -1, 2, 0}, none = {{}, 0, 0, 0, 0};
    octofix::pose away = turned, zero_away = none;
    away.at.x = zero_away.at.x = far;
    const octofix::point near = metres(1, 2, 0), beyond = {far, 0, 0}, last = {less, less, -less};
    octofix::scan_options odd, cut;
    odd.hit = -1;
    cut.range = 2.5;
    return {{turned, {near, metres(0, 9e6, 0)}, {}},
            {turned, {near, near, beyond}, {}},
            {away, {beyond}, {}},
            {octofix::pose_at(9e6, 0, 0), {near}, {}},
            {none, {near}, odd},
            {zero_away, {near}, {}},
            {none, {near, beyond}, {}},
            {turned, {near}, odd},
            {turned, {near, last}, {}},
            {turned, {near, last}, cut}};
}

/// What a call says of a scan: its refusal, or nothing.
template <class Call> std::string said_of(Call call) {
    try {
        call();
    } catch (const octofix::refused &error) {
        return error.what();
    }
    return {};
}

std::uint32_t code_of(octofix::mapper &to, const octofix::pose &from,
                      const std::vector<octofix::point> &points) {
    try {
        to.add(from, points);
    } catch (const octofix::refused &error) {
        return error.code();
    }
    return 0;
}

template <class Error, class Call> bool throws(Call call) {
    try {
        call();
    } catch (const Error &) {
        return true;
    }
    return false;
}

void try_same_maps() {
    for (unsigned seed = 0; seed < 6; ++seed) {
        const std::vector<look> all = looks(seed);
        octofix::map one(0.1);
        for (const look &it : all) one.scan(it.from, it.points, it.how);
        for (const unsigned threads : {0u, 1u, 2u, 3u, 7u}) {
            // (with 3 threads they begin before the last scan comes)
            octofix::mapper mapper(0.1, octofix::default_odds, octofix::default_limits, threads,
                                   threads == 3 ? 20 : 1000);
            for (const look &it : all) mapper.add(it.from, it.points, it.how);
            const octofix::map came = mapper.finish();
            EXPECT(came.snapshot() == one.snapshot() && came.save() == one.save());
            EXPECT(!came.window() && came.settings().is_stale == one.settings().is_stale);
        }
    }
}

/// Sensors that are turned in double, scans that are done in parts, and each way to say how many
/// threads there are to be.
void try_turned_and_parted() {
    std::mt19937 random(11);
    const auto points = cloud(random, 300);
    const auto sensor = octofix::turned(metres(0.4, -0.3, 1), 0.9, 0.1, -0.2, 0.3);
    octofix::scan_options near;
    near.range = 4;
    octofix::map one(0.1);
    one.scan(sensor, points, near), one.scan(sensor, points);
    const octofix::limits few_cells = {1 << 20, 500};
    octofix::mapper two(0.1, 2), exact(0.1f, octofix::default_odds, few_cells, 3, 100);
    for (octofix::mapper *it : {&two, &exact}) {
        it->add(sensor, points, near), it->add(sensor, points);
        EXPECT(it->finish().snapshot() == one.snapshot());
    }
}

/// Scans are refused for the same reasons, also between others, and what comes is the same, noted
/// under a mark too.
void try_same_refusals() {
    std::vector<look> all = refused_looks();
    for (const look &it : looks(7)) all.push_back(it), all.push_back(all[all.size() % 10]);
    for (const unsigned threads : {1u, 3u}) {
        octofix::map one(0.5), marked(0.5);
        octofix::mapper mapper(0.5, octofix::default_odds, octofix::default_limits, threads, 20);
        marked.track();
        one.track();
        int refused = 0;
        for (const look &it : all) {
            const std::string said = said_of([&] { one.scan(it.from, it.points, it.how); });
            EXPECT(said_of([&] { mapper.add(it.from, it.points, it.how); }) == said);
            refused += !said.empty();
        }
        EXPECT(refused > 9 && refused < static_cast<int>(all.size()) - 8);
        octofix::map came = mapper.finish();
        EXPECT(came.snapshot() == one.snapshot());
        marked.merge(came);
        const auto wanted = one.changes(), changes = marked.changes();
        const auto is_same = [](const octofix::change &a, const octofix::change &b) {
            return a.key.x == b.key.x && a.key.y == b.key.y && a.key.z == b.key.z &&
                   a.kind == b.kind;
        };
        EXPECT(!wanted.empty() && std::equal(wanted.begin(), wanted.end(), changes.begin(),
                                             changes.end(), is_same));
    }
}

/// What each thread does last, once it has done all items.
void try_last_tasks() {
    std::array<std::atomic<int>, 2> done{}, at_last{};
    const auto count = [&](std::size_t i) { return [&, i](const int &) { ++done[i]; }; };
    octofix::detail::crew<int> both({count(0), count(1)}, [](int &) {},
                                    [&](std::size_t i) { at_last[i] = done[i].load(); });
    for (int i = 0; i < 5; ++i) both.put(std::make_unique<int>(i), 1);
    both.finish();
    EXPECT(at_last[0] == 5 && at_last[1] == 5);
    octofix::detail::crew<int> torn({count(0), count(1)}, [](int &) {}, [&](std::size_t i) {
        if (i == 1) throw std::bad_alloc();
    });
    EXPECT(throws<std::bad_alloc>([&] { torn.finish(); }));
    EXPECT(throws<std::bad_alloc>([&] { torn.put(std::make_unique<int>(0), 1); }));
}

/// More items than may wait for the slower of two threads.
void try_crew() {
    std::array<std::vector<int>, 2> done;
    octofix::detail::crew<int> both({[&](const int &it) { done[0].push_back(it); },
                                     [&](const int &it) {
                                         std::this_thread::sleep_for(std::chrono::milliseconds(1));
                                         done[1].push_back(it);
                                     }},
                                    [](int &it) { it *= 10; }, {}, 3);
    std::vector<int> all;
    for (int i = 0; i < 20; ++i) {
        all.push_back(10 * i);
        both.put(std::make_unique<int>(i), 2);
    }
    both.finish();
    EXPECT(done[0] == all && done[1] == all);
}

/// Two items are prepared at once, each waiting for the other one; then both are done in turn. One
/// that can't be prepared ends all.
void try_preparations() {
    std::atomic<int> begun{0};
    std::array<std::vector<int>, 2> done;
    const auto add_to = [&](std::size_t i) {
        return [&, i](const int &it) { done[i].push_back(it); };
    };
    octofix::detail::crew<int> both({add_to(0), add_to(1)}, [&](int &it) {
        for (++begun; begun < 2;) std::this_thread::yield();
        it += 5;
    });
    for (int i = 0; i < 2; ++i) both.put(std::make_unique<int>(i), 1);
    both.finish();
    EXPECT(done[0] == (std::vector{5, 6}) && done[1] == done[0]);
    octofix::detail::crew<int> torn({add_to(0), add_to(1)}, [](int &) { throw std::bad_alloc(); });
    EXPECT(throws<std::bad_alloc>([&] {
        torn.put(std::make_unique<int>(0), 1);
        torn.finish();
    }));
    EXPECT(done[0].size() == 2 && done[1].size() == 2);
}

void try_refusals() {
    octofix::mapper mapper(0.1, octofix::default_odds, octofix::default_limits, 3);
    const octofix::pose from = octofix::pose_at(0, 0, 0);
    mapper.add(from, {metres(1, 0, 0)});
    EXPECT(code_of(mapper, from, {metres(1, 0, 0), metres(9e6, 0, 0)}) == OCTOFIX_POINT_OUTSIDE);
    EXPECT(code_of(mapper, octofix::pose_at(9e6, 0, 0), {}) == OCTOFIX_ORIGIN_OUTSIDE);
    EXPECT(throws<octofix::bad_length>([&] { mapper.add(from, {}, {-1, 0, 0, false}); }));
    mapper.add(from, {metres(0, 1, 0)});
    octofix::map one(0.1);
    one.scan(from, std::vector{metres(1, 0, 0)});
    one.scan(from, std::vector{metres(0, 1, 0)});
    EXPECT(mapper.finish().snapshot() == one.snapshot());
    EXPECT(throws<std::logic_error>([&] { mapper.add(from, {}); }));
    EXPECT(throws<std::logic_error>([&] { mapper.finish(); }));
    EXPECT(throws<octofix::refused>([] { octofix::mapper none(0); }));
}

/// A region that is full ends all, whichever call comes next.
void try_full() {
    const octofix::limits few = {16, 1 << 20};
    octofix::mapper mapper(0.1, octofix::default_odds, few, 2);
    const octofix::pose from = octofix::pose_at(0, 0, 0);
    mapper.add(from, {metres(3, 3, 3), metres(-3, -3, -3)});
    EXPECT(throws<octofix::refused>([&] { mapper.finish(); }));
    EXPECT(throws<octofix::refused>([&] { mapper.add(from, {}); }));
    EXPECT(throws<octofix::refused>([&] { mapper.finish(); }));
}

/// Each region has one voxel, which takes 16 groups, and both take 31 together.
void try_more_room() {
    const octofix::limits few = {16, 1 << 20};
    octofix::mapper mapper(0.1, octofix::default_odds, few, 2);
    mapper.add(octofix::pose_at(5, 5, 5), {metres(0.01, 0.01, 0.01)});
    mapper.add(octofix::pose_at(-5, -5, -5), {metres(0.01, 0.01, 0.01)});
    octofix::map world = mapper.finish();
    EXPECT(world.get(metres(5, 5, 5)) == 850 && world.get(metres(-4.99, -5, -5)) == 850);
    EXPECT(world.counts().groups == 31);
}

/// Scans where one request for memory is refused; whether there were as many.
bool try_with_refused_request(const std::vector<look> &all, const octofix::bytes &wanted,
                              long number) {
    std::vector<look> given = all;
    octofix::mapper mapper(0.1, octofix::default_odds, octofix::default_limits, 3, 20);
    std::optional<octofix::map> came;
    bool is_torn = false;
    const auto does = [&](auto call) {
        const bool is_refused = throws<std::bad_alloc>(call);
        EXPECT(is_refused || !is_torn);
        is_torn = is_refused;
    };
    granted_first = number;
    for (look &it : given) does([&] { mapper.add(it.from, std::move(it.points), it.how); });
    does([&] { came.emplace(mapper.finish()); });
    granted_first = -1;
    EXPECT(is_torn || came->snapshot() == wanted);
    return is_torn;
}

/// Once memory has run out midway, each call throws that: the map would lack a scan.
void try_refused_requests() {
    const std::vector<look> all = looks(1);
    octofix::map one(0.1);
    for (const look &it : all) one.scan(it.from, it.points, it.how);
    long number = 0;
    // (of the first twenty each, and then less and less often)
    while (try_with_refused_request(all, one.snapshot(), number)) number += 1 + number / 20;
    EXPECT(number > 30);
}

void try_ends() {
    octofix::mapper none(0.1);
    EXPECT(none.finish().leaves().empty());
    octofix::mapper left(0.1, octofix::default_odds, octofix::default_limits, 4);
    left.add(octofix::pose_at(0, 0, 0), {metres(1, 0, 0)});
}

} // namespace

int main() {
    try_same_maps();
    try_turned_and_parted();
    try_same_refusals();
    try_crew();
    try_preparations();
    try_last_tasks();
    try_refusals();
    try_full();
    try_more_room();
    try_refused_requests();
    try_ends();
    std::printf("mapper: %d failed\n", failed);
    return failed != 0;
}
