// Scans that one call can't take, which are done in parts, and sensors that are turned in double.
#include <octofix.hpp>

#include <array>
#include <cmath>
#include <cstdio>
#include <cstdlib>
#include <random>
#include <string>

namespace {

int failed = 0;

void expect(int line, bool holds) {
    if (holds) return;
    failed++;
    std::printf("line %d doesn't hold\n", line);
}

#define EXPECT(what) expect(__LINE__, what)

using octofix::metres;

constexpr octofix::limits few_cells = {1 << 20, 300}; // some five beams
const octofix::point eye = metres(0.03, 0.02, 0.01);

/// Points around the sensor, a few of which share a voxel.
std::vector<octofix::point> cloud() {
    std::mt19937 random(5);
    std::uniform_real_distribution<double> draw(-2, 2);
    std::vector<octofix::point> points;
    for (int i = 0; i < 400; ++i) points.push_back(metres(draw(random), draw(random), 1));
    for (int i = 0; i < 50; ++i) points.push_back(points[static_cast<std::size_t>(i)]);
    return points;
}

std::string refusal_of(octofix::map &world, octofix::view<octofix::point> points,
                       const octofix::scan_options &how = {}) {
    try {
        world.scan_from(eye, points, how);
    } catch (const octofix::refused &error) {
        return error.what();
    }
    return "";
}

bool are_equal(const octofix::counted &a, const octofix::counted &b) {
    return a.hits == b.hits && a.frees == b.frees;
}

/// A scan in parts leaves the map, and the counts, of one at once: also where a map has an update
/// box, is scanned again, or a scan has a range or numbers of its own.
void try_parts() {
    const auto points = cloud();
    octofix::scan_options plain, own;
    own.range = 1.5, own.hit = 300, own.miss = -77, own.lazy = true;
    for (const bool has_box : {false, true}) {
        octofix::map whole(0.1), parted(0.1, octofix::default_odds, few_cells);
        for (octofix::map *it : {&whole, &parted})
            if (has_box) it->limit(metres(-1, -1, 0.2), metres(1, 2, 2));
        for (const auto &how : {plain, own, plain}) {
            const auto one = whole.scan_from(eye, points, how);
            EXPECT(are_equal(one, parted.scan_from(eye, points, how)) && one.frees > 400);
            EXPECT(parted.settings().limits.max_cells == few_cells.max_cells);
        }
        const auto turned = octofix::turned(eye, 1, 0.2, -0.3, 0.1);
        EXPECT(are_equal(whole.scan(turned, points), parted.scan(turned, points)));
        EXPECT(whole.snapshot() == parted.snapshot());
    }
}

/// The changes since a mark are those of one scan.
void try_marks() {
    const auto points = cloud();
    octofix::map whole(0.1), parted(0.1, octofix::default_odds, few_cells);
    for (octofix::map *it : {&whole, &parted}) {
        it->scan_from(eye, {points.data(), 100});
        it->track();
        it->scan_from(eye, points);
    }
    const auto one = whole.changes(), other = parted.changes();
    EXPECT(one.size() == other.size() && one.size() > 400);
    for (std::size_t i = 0; i < one.size() && i < other.size(); ++i)
        EXPECT(one[i].key.x == other[i].key.x && one[i].key.z == other[i].key.z &&
               one[i].kind == other[i].kind);
    EXPECT(parted.settings().is_tracked && whole.snapshot() == parted.snapshot());
}

/// A block of more voxels than an edit may have while a mark stands is done by its parts.
void try_large_blocks() {
    octofix::map world(0.1);
    world.track();
    const octofix::block large = {9, 256, 256, 256, 0}; // 128 voxels a side
    try {
        world.edit_box(metres(0, 0, 0), metres(12.75, 12.75, 12.75), octofix::event::add, -400);
        EXPECT(false);
    } catch (const octofix::refused &error) {
        EXPECT(error.code() == OCTOFIX_WIDE_WHILE_TRACKED);
    }
    octofix::detail::add_to_block(world, large, -400);
    const auto leaves = world.leaves();
    EXPECT(leaves.size() == 1 && leaves[0].depth == 9 && leaves[0].x == 256);
    EXPECT(leaves[0].value == -400);
}

/// What is refused leaves the map as it was, and has the index of the whole scan.
void try_refusals() {
    auto points = cloud();
    octofix::map parted(0.1, octofix::default_odds, few_cells);
    parted.scan_from(eye, points);
    parted.track();
    const auto before = parted.snapshot();
    points[321] = metres(200, 0, 0);
    EXPECT(refusal_of(parted, points).find("refused 8 TooManyCells index 321 cells 20") == 0);
    points[400] = metres(9000, 0, 0);
    const auto last = octofix::view(points.data() + 330, 120);
    EXPECT(refusal_of(parted, last) == "refused 7 PointOutside index 70");
    octofix::scan_options odd;
    odd.hit = -1;
    EXPECT(refusal_of(parted, last, odd) == "refused 4 BadModel hit");
    EXPECT(parted.snapshot() == before && parted.changes().empty());
    octofix::map small(0.1, octofix::default_odds, {200, 300});
    small.set(eye, 5);
    EXPECT(refusal_of(small, octofix::view(points.data(), 300)).find("refused 23 Full") == 0);
    EXPECT(small.get(eye) == 5 && small.least_tree().leaves == 1);
}

/// By hand: 30 degrees about z, 100 m ahead; sixteen bits are off by millimetres there.
void try_turns() {
    const double half = std::acos(-1.0) / 12;
    const auto sensor = octofix::turned(metres(1, 2, 3), 2 * std::cos(half), 0, 0,
                                        2 * std::sin(half));
    const octofix::point ahead[] = {metres(100, 0, 0), metres(0, -100, 7)};
    const auto there = octofix::place(sensor, ahead);
    const auto is_near = [](const octofix::point &it, std::int64_t x, std::int64_t y,
                            std::int64_t z) {
        return std::llabs(it.x - x) <= 1 && std::llabs(it.y - y) <= 1 && it.z == z;
    };
    EXPECT(is_near(there[0], 86602540378 + 1000000000, 50000000000 + 2000000000, 3000000000));
    EXPECT(is_near(there[1], 50000000000 + 1000000000, -86602540378 + 2000000000, 10000000000));
    octofix::map world(0.001, octofix::default_odds, {1 << 24, 1 << 27}), same(0.001);
    const octofix::point near[] = {metres(10, 0, 0)};
    const auto middle = octofix::turned(metres(0, 0, 0), std::cos(half), 0, 0, std::sin(half));
    world.scan(middle, near);
    EXPECT(world.get(metres(8.66025404, 5, 0)) == 850);
    same.scan_from(metres(0, 0, 0), octofix::place(middle, near));
    EXPECT(world.snapshot() == same.snapshot());
    const octofix::pose rough = middle; // for calls of C
    EXPECT(rough.w == 32767 && rough.z == 8780);
    const octofix::point far[] = {{0, 0, 0}, {INT64_MAX, INT64_MIN, 0}};
    try {
        world.scan(middle, far);
        EXPECT(false);
    } catch (const octofix::refused &error) {
        EXPECT(std::string(error.what()) == "refused 47 BadArgument index 1");
    }
}

} // namespace

int main() {
    try_parts();
    try_marks();
    try_large_blocks();
    try_refusals();
    try_turns();
    std::printf("scans: %d failed\n", failed);
    return failed != 0;
}
