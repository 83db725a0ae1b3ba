// What the examples and the clients don't show: refusals, files of paths, moved maps, what the
// class for OctoMap programs answers or throws, and threads that ask through const methods.
#include <octofix_octree.hpp>

#include <array>
#include <cstdio>
#include <iomanip>
#include <limits>
#include <sstream>
#include <thread>

using octofix::metres;

namespace {

int failed = 0;

void expect(int line, bool holds) {
    if (holds) return;
    failed++;
    std::printf("line %d doesn't hold\n", line);
}

#define EXPECT(what) expect(__LINE__, what)

/// The code that a call is refused with, or 0.
template <class Call> std::uint32_t code_of(Call call) {
    try {
        call();
    } catch (const octofix::refused &error) {
        return error.code();
    }
    return 0;
}

/// The index that a call's lengths are refused with, or -1.
template <class Call> long index_of(Call call) {
    try {
        call();
    } catch (const octofix::bad_length &error) {
        return static_cast<long>(error.index());
    }
    return -1;
}

/// What is said of a call's length, or nothing.
template <class Call> std::string text_of(Call call) {
    try {
        call();
    } catch (const octofix::bad_length &error) {
        return error.what();
    }
    return "";
}

template <class Call> bool is_file_error(Call call) {
    try {
        call();
    } catch (const std::filesystem::filesystem_error &) {
        return true;
    }
    return false;
}

template <class Call> bool is_unsupported(Call call) {
    try {
        call();
    } catch (const octofix::unsupported &) {
        return true;
    }
    return false;
}

void try_lengths() {
    const double nan = std::numeric_limits<double>::quiet_NaN();
    const double infinity = std::numeric_limits<double>::infinity();
    EXPECT(octofix::nanometres(0.1) == 100000000);
    EXPECT(octofix::nanometres(0.0000000005) == 0); // halves go to the even number
    EXPECT(octofix::nanometres(-0.0000000015) == -2 && octofix::nanometres(2.5e-9) == 2);
    EXPECT(octofix::nanometres(0.0000000006) == 1 && octofix::nanometres(0.0000000004) == 0);
    EXPECT(index_of([] { return octofix::nanometres(1e7); }) == 0);
    EXPECT(index_of([&] { return metres(0, 0, nan); }) == 0);
    const double row[] = {0, 0, 0, 1, 1, 1, 0, -infinity, 0};
    EXPECT(index_of([&] { return metres(row, 3); }) == 2);
    EXPECT(metres(row, 2)[1].z == 1000000000);
    struct sighting {
        float x, y, z, intensity;
    };
    EXPECT(metres(std::vector<sighting>{{1, 2, 3, 0}})[0].y == 2000000000);
    EXPECT(text_of([] { return metres(0, 1e7, 0); }) ==
           "point 0 isn't finite, or 10^7 m or more from the origin");
    const std::string edge = "the edge of a voxel isn't finite, or 10^7 m or more";
    EXPECT(text_of([&] { octofix::map world(infinity); }) == edge);
    EXPECT(text_of([] { octofix::map world(1e8); }) == edge);
    EXPECT(text_of([&] { return octofix::ray(nan, {0, 0, 0}, {0, 0, 0}); }) == edge);
    EXPECT(text_of([&] { octofix::OcTree tree(-infinity); }) == edge);
    octofix::map world(0.1);
    const auto wall = metres(row, 2);
    for (const double range : {nan, infinity, 1e7, -5.0, -1e-12}) {
        octofix::scan_options how;
        how.range = range;
        const std::string text = "a range isn't from 0 to below 10^7 m";
        EXPECT(text_of([&] { world.scan(octofix::pose_at(0, 0, 0), {}, how); }) == text);
        EXPECT(text_of([&] { world.scan_from({0, 0, 0}, wall, how); }) == text);
    }
    EXPECT(world.leaves().empty());
    octofix::scan_options nothing;
    nothing.range = 0;
    EXPECT(world.scan_from({0, 0, 0}, metres(row + 3, 1), nothing).hits == 0);
    EXPECT(octofix::log_odds(0.7) == 847);
    EXPECT(octofix::log_odds(0.4) == -405);
    EXPECT(std::fabs(octofix::probability_of(847) - 0.7) < 1e-4);
    EXPECT(octofix::probability_of(std::numeric_limits<std::int32_t>::min()) == 0);
    EXPECT(octofix::probability_of(std::numeric_limits<std::int32_t>::max()) == 1);
}

/// The edge of a voxel that is a float stands for the decimal that it prints.
void try_floats() {
    octofix::map world(0.05f);
    EXPECT(world.settings().res == 50000000 && octofix::map(0.1f).settings().res == 100000000);
    EXPECT(octofix::map(0.123456f).settings().res == 123456000);
    EXPECT(octofix::OcTree(0.05f).getResolution() == 0.05);
    EXPECT(octofix::ray(0.05f, metres(0, 0, 0), metres(6553.5 / 4, 0, 0)).size() == 32768);
    EXPECT(octofix::map(0.05).settings().res == 50000000 && octofix::map(1).resolution() == 1);
    const float nan = std::numeric_limits<float>::quiet_NaN();
    EXPECT(!text_of([&] { octofix::map none(nan); }).empty());
    EXPECT(metres(0.1f, 0, 0).x == 100000001); // of a coordinate all its digits count
}

// Elements of another size than those that a call reads are none of its own.
struct bigger_point : octofix::point {
    double intensity;
};
static_assert(!std::is_convertible_v<std::vector<bigger_point>, octofix::view<octofix::point>>);
static_assert(!std::is_convertible_v<std::array<bigger_point, 2>, octofix::view<octofix::point>>);
static_assert(std::is_convertible_v<std::vector<octofix::point>, octofix::view<octofix::point>>);

/// What an organised cloud has where its sensor saw nothing may be left out; its indices stay.
void try_unfinite() {
    constexpr auto skipped = octofix::unfinite::skipped;
    const float nan = std::numeric_limits<float>::quiet_NaN();
    const float infinity = std::numeric_limits<float>::infinity();
    const float cloud[][3] = {{1, 2, 3}, {nan, nan, nan}, {0, infinity, 0}, {4, 5, 6}};
    const auto seen = metres(cloud, skipped);
    EXPECT(seen.size() == 2 && seen[0].z == 3000000000 && seen[1].x == 4000000000);
    EXPECT(metres(cloud[0], 4, skipped).size() == 2);
    EXPECT(index_of([&] { return metres(cloud); }) == 1);
    const float far[][3] = {{nan, 0, 0}, {1, 2, 3}, {0, 1e7f, 0}};
    EXPECT(index_of([&] { return metres(far, skipped); }) == 2);
}

/// Quaternions whose squares and sums are beyond a double; by hand, a half turn about x and z.
void try_turns() {
    const double huge = std::numeric_limits<double>::max();
    const double infinity = std::numeric_limits<double>::infinity();
    const auto is_refused = [](double w, double x) {
        try {
            static_cast<void>(octofix::turned({0, 0, 0}, w, x, 0, 0));
            return false;
        } catch (const std::domain_error &) {
            return true;
        }
    };
    const octofix::pose half = octofix::turned({0, 0, 0}, 0, huge, 0, huge);
    EXPECT(half.w == 0 && half.x == 32767 && half.y == 0 && half.z == 32767);
    EXPECT(octofix::turned({0, 0, 0}, -5e-324, 0, 0, 0).w == -32767);
    EXPECT(is_refused(infinity, 0) && is_refused(0, std::nan("")) && is_refused(0, 0));
}

/// Points in nanometres may be any numbers: what is too far away is refused.
void try_far_points() {
    constexpr std::int64_t low = std::numeric_limits<std::int64_t>::min();
    constexpr std::int64_t high = std::numeric_limits<std::int64_t>::max();
    octofix::map world(0.1);
    const std::int64_t ends[] = {low, high};
    for (const std::int64_t end : ends) {
        const octofix::point points[] = {{0, 0, 0}, {0, 0, end}};
        for (const std::int64_t z : {std::int64_t{-1}, std::int64_t{1}, low, high}) {
            const octofix::point origin = {0, 0, z};
            try {
                world.scan_from(origin, points);
                EXPECT(false);
            } catch (const octofix::refused &error) {
                const bool is_near = z == -1 || z == 1;
                EXPECT(error.code() == OCTOFIX_BAD_ARGUMENT);
                EXPECT(error.details().first == (is_near ? 1u : 0u));
                EXPECT(std::string(error.what()) ==
                       "refused 47 BadArgument index " + std::to_string(error.details().first));
            }
        }
    }
    EXPECT(world.leaves().empty());
}

/// What is said of a refused call, or nothing.
template <class Call> std::string refusal_of(Call call) {
    try {
        call();
    } catch (const octofix::refused &error) {
        return error.what();
    }
    return "";
}

/// An index is named where there is an array.
void try_bad_arguments(octofix::map &world) {
    octofix::map other(0.1);
    const octofix::point at = metres(1, 1, 1);
    const octofix::edit good = {at, octofix::event::set, 5};
    const octofix::edit bad = {at, octofix::event::set, 1000001};
    const std::string said = "refused 47 BadArgument";
    EXPECT(refusal_of([&] { world.set(at, bad.number); }) == said);
    EXPECT(refusal_of([&] { world.edit_box(at, at, bad.what, bad.number); }) == said);
    EXPECT(refusal_of([&] { world.merge(other, octofix::rule(9)); }) == said);
    EXPECT(refusal_of([&] { world.edit_all(std::array{good, bad}); }) == said + " index 1");
    world.forget(at);
}

void try_refusals() {
    EXPECT(code_of([] { octofix::map world(0); }) == OCTOFIX_BAD_RESOLUTION);
    EXPECT(code_of([] { octofix::map world(0.1, {850, 1, -2000, 3500, 0}); }) == OCTOFIX_BAD_MODEL);
    EXPECT(code_of([] { octofix::map world(0.1, octofix::default_odds, {0, 0}); }) ==
           OCTOFIX_BAD_ARGUMENT);
    octofix::map world(0.1), narrow(0.1, octofix::default_odds, {16, 1});
    const octofix::point far = metres(4000, 0, 0), near = metres(1, 1, 1);
    try {
        narrow.scan_from(near, std::array{metres(9, 9, 9)});
        EXPECT(false);
    } catch (const octofix::refused &error) {
        EXPECT(std::string(error.hint()).find("max_cells") != std::string::npos);
    }
    EXPECT(std::string(octofix::refused(OCTOFIX_FULL).hint()).find("max_groups") !=
           std::string::npos);
    EXPECT(std::string(octofix::refused(OCTOFIX_OUTSIDE).hint()).empty());
    EXPECT(std::string(octofix::refused(OCTOFIX_BAD_MODEL, {4, 0}).what()) ==
           "refused 4 BadModel thr");
    EXPECT(std::string(octofix::refused(OCTOFIX_MISSING_FIELD, {3, 0}).what()) ==
           "refused 13 MissingField data");
    EXPECT(std::string(octofix::refused(OCTOFIX_BAD_FIELD, {1, 0}).what()) ==
           "refused 14 BadField res");
    EXPECT(std::string(octofix::refused(OCTOFIX_WIDE_GRID, {67108865, 0}).what()) ==
           "refused 38 WideGrid count 67108865");
    try_bad_arguments(world);
    EXPECT(code_of([&] { return world.get(far); }) == OCTOFIX_OUTSIDE);
    EXPECT(code_of([&] { return world.leaves(near, metres(0, 0, 0)); }) == OCTOFIX_BAD_BOX);
    EXPECT(code_of([&] { return world.list(near, far); }) == OCTOFIX_OUTSIDE);
    EXPECT(code_of([&] { return world.changes(); }) == OCTOFIX_NOT_TRACKED);
    EXPECT(code_of([&] { world.restore({}); }) == OCTOFIX_BAD_MAGIC);
    EXPECT(code_of([&] { world.load({}); }) == OCTOFIX_NOT_OCTOMAP);
    EXPECT(code_of([&] { return octofix::ray(0.1, near, far); }) == OCTOFIX_OUTSIDE);
    const std::vector<octofix::edit> edits = {{near, octofix::event::set, 5},
                                              {far, octofix::event::set, 5}};
    try {
        world.edit_all(edits);
        EXPECT(false);
    } catch (const octofix::edits_refused &error) {
        EXPECT(error.done() == 1 && error.code() == OCTOFIX_OUTSIDE);
        EXPECT(std::string(error.what()) == "refused 24 Outside point 1");
        EXPECT(std::string(error.name()) == "Outside");
    }
    EXPECT(world.get(near) == 5);
    octofix::map other(std::move(world));
    EXPECT(code_of([&] { return world.settings(); }) == OCTOFIX_CLOSED);
    world = std::move(other);
    EXPECT(world.get(near) == 5);
    EXPECT(world.get_all({}).empty() && world.cast_all({}).empty());
    world.edit_all({});
    EXPECT(world.scan(octofix::pose_at(0, 0, 0), {}).hits == 0);
}

void try_copies() {
    octofix::map world(0.1);
    world.track();
    world.set(metres(1, 2, 3), 700, true);
    octofix::map copy = world.copy();
    EXPECT(copy.settings().is_stale && copy.settings().is_tracked);
    EXPECT(copy.memory() == world.memory());
    EXPECT(copy.changes().size() == 1);
    copy.set(metres(1, 2, 3), 5);
    EXPECT(world.get(metres(1, 2, 3)) == 700 && copy.get(metres(1, 2, 3)) == 5);
    world = std::move(copy);
    EXPECT(world.get(metres(1, 2, 3)) == 5);
    EXPECT(code_of([&] { return copy.copy(); }) == OCTOFIX_CLOSED);
}

void try_files(const std::filesystem::path &folder) {
    octofix::map world(0.1), other(0.1);
    world.set(metres(1, 2, 3), 700);
    world.limit(metres(0, 0, 0), metres(1, 1, 1));
    world.save_to(folder / "world.bt");
    world.snapshot_to(folder / "world.snap");
    other.load_from(folder / "world.bt");
    EXPECT(other.get(metres(1, 2, 3)) == 3500);
    other.restore_from(folder / "world.snap");
    EXPECT(other.get(metres(1, 2, 3)) == 700);
    EXPECT(other.window().has_value());
    EXPECT(world.copy().snapshot() == world.snapshot());
    EXPECT(world.clone().snapshot() == world.snapshot());
    EXPECT(is_file_error([&] { other.load_from(folder / "missing.bt"); }));
    EXPECT(is_file_error([&] { other.load_from(folder); }));
    EXPECT(other.get(metres(1, 2, 3)) == 700);
    octofix::OcTree tree(0.1);
    EXPECT(tree.readBinary((folder / "world.bt").string()) && tree.search(1, 2, 3));
    EXPECT(!tree.readBinary((folder / "missing.bt").string()) && !tree.readBinary(folder.string()));
    EXPECT(!tree.readBinary((folder / "world.snap").string()) && tree.search(1, 2, 3));
}

void try_grid() {
    octofix::map world(0.1);
    world.edit_box(metres(0, 0, 0), metres(0.3, 0.3, 0.3), octofix::event::set, 9);
    world.edit(metres(0.4, 0.1, 0), octofix::event::set, -9);
    const octofix::occupancy_grid grid = world.grid(metres(0.25, 0.1, 0), metres(0.45, 0.2, 0.1));
    EXPECT(grid.width == 3 && grid.height == 2 && grid.resolution == 0.1);
    EXPECT(std::fabs(grid.x - 0.2) < 1e-12 && std::fabs(grid.y - 0.1) < 1e-12);
    EXPECT((grid.cells == std::vector<std::int8_t>{100, 100, 0, 100, 100, -1}));
    EXPECT(grid.at(2, 0) == OCTOFIX_CELL_FREE && grid.at(2, 1) == OCTOFIX_CELL_UNKNOWN);
    const auto code = [&](const octofix::point &low, const octofix::point &high) {
        return code_of([&] { return world.grid(low, high); });
    };
    EXPECT(code(metres(0, 0, 0), metres(-1, 0, 0)) == OCTOFIX_BAD_BOX);
    EXPECT(code(metres(0, 0, 0), metres(0, 0, 4000)) == OCTOFIX_OUTSIDE);
    EXPECT(code(metres(-3276, -3276, 0), metres(3276, -2000, 0)) == OCTOFIX_WIDE_GRID);
}

void try_keeping() {
    octofix::map world(0.1);
    world.edit_box(metres(0, 0, 0), metres(0.3, 0.3, 0.3), octofix::event::set, 9);
    world.keep_box(metres(0.3, 0.3, 0.3), metres(9, 9, 9));
    EXPECT(world.get(metres(0.3, 0.3, 0.3)) == 9);
    EXPECT(!world.get(metres(0.2, 0.3, 0.3)));
    EXPECT(code_of([&] { world.keep_box(metres(1, 0, 0), metres(0, 0, 0)); }) == OCTOFIX_BAD_BOX);
}

void try_moving() {
    octofix::map world(0.1), other(0.1);
    other.edit(metres(0, 0, 0), octofix::event::set, 9);
    world.merge_shifted(other, 3, -2, 1);
    EXPECT(world.get(metres(0.3, -0.2, 0.1)) == 9 && !world.get(metres(0, 0, 0)));
    world.merge_shifted(world, -3, 2, -1);
    EXPECT(world.get(metres(0, 0, 0)) == 9 && world.get(metres(0.3, -0.2, 0.1)) == 9);
    EXPECT(code_of([&] { world.merge_shifted(other, 32768, 0, 0); }) == OCTOFIX_OUTSIDE);
}

void try_voxels() {
    octofix::map world(0.1);
    world.edit_box(metres(0, 0, 0), metres(0.3, 0.3, 0.3), octofix::event::set, 9);
    EXPECT(world.leaves().size() == 1);
    std::size_t count = 0, last = 0;
    for (const octofix::voxel &it : world.known_voxels()) {
        count++;
        last = it.key.z;
        EXPECT(it.key.x >= 32768 && it.key.x < 32772 && it.value == 9);
    }
    EXPECT(count == 64 && last == 32771);
    using octofix::sought;
    EXPECT(world.leaves(sought::occupied).size() == 1 && world.leaves(sought::free).empty());
    EXPECT(world.leaves(sought::occupied, metres(0, 0, 0), metres(1, 1, 1)).size() == 1);
    EXPECT(world.bounds(sought::occupied) && !world.bounds(sought::free));
    double x, y, z;
    world.middle(world.leaves()[0], x, y, z);
    EXPECT(std::fabs(x - 0.2) < 1e-12 && std::fabs(z - 0.2) < 1e-12);
    const auto [left, front, up] = world.middle(world.leaves()[0]);
    EXPECT(left == x && front == y && up == z);
}

/// Keys by hand: 0.25 m are the voxel that begins 0.2 m above the origin.
void try_keys() {
    const octofix::map world(0.1);
    const auto is = [](const octofix::voxel_key &it, int x, int y, int z) {
        return it.x == x && it.y == y && it.z == z;
    };
    EXPECT(is(world.key_of(metres(0.25, 0, -0.01)), 32770, 32768, 32767));
    EXPECT(is(world.key_of(metres(-3276.8, 3276.79, 0)), 0, 65535, 32768));
    EXPECT(is(world.key_of({-1, -100000000, -100000001}), 32767, 32767, 32766));
    const auto [x, y, z] = world.middle(octofix::voxel_key{32770, 0, 65535});
    EXPECT(std::fabs(x - 0.25) < 1e-12 && std::fabs(y + 3276.75) < 1e-9);
    EXPECT(std::fabs(z - 3276.75) < 1e-9);
    EXPECT(is(world.key_of(metres(x, y, z)), 32770, 0, 65535));
    constexpr std::int64_t low = std::numeric_limits<std::int64_t>::min();
    constexpr std::int64_t high = std::numeric_limits<std::int64_t>::max();
    const octofix::point outside[] = {{low, 0, 0}, {0, high, 0}, {0, 0, 3276800000000}};
    for (const octofix::point &it : outside)
        EXPECT(code_of([&] { return world.key_of(it); }) == OCTOFIX_OUTSIDE);
    const octofix::point points[] = {metres(0.25, 0, -0.01), metres(-3276.8, 3276.79, 0)};
    const auto keys = world.keys(points);
    EXPECT(keys.size() == 2 && is(keys[0], 32770, 32768, 32767) && is(keys[1], 0, 65535, 32768));
    EXPECT(code_of([&] { return world.keys(outside); }) == OCTOFIX_OUTSIDE);
    const auto centers = world.centers(keys);
    EXPECT(centers.size() == 2 && centers[0] == world.center(keys[0]));
    EXPECT(world.center(keys[1]) == world.middle(keys[1]));
    EXPECT(std::fabs(centers[0][0] - 0.25) < 1e-12 && std::fabs(centers[1][1] - 3276.75) < 1e-9);
}

void try_models() {
    octofix::OcTree tree(0.1);
    const octofix::point3d p(0.05f, 0.05f, 0.05f);
    EXPECT(tree.updateNode(p, true)->getLogOdds() == 0.847f);
    tree.setProbHit(0.9);
    EXPECT(tree.updateNode(p, true)->getLogOdds() == 3.044f); // 0.847 and 2.197
    tree.setClampingThresMax(0.9);
    EXPECT(tree.search(p)->getLogOdds() == 2.197f);
    tree.setOccupancyThres(0.85);
    EXPECT(tree.isNodeOccupied(tree.search(p)));
    EXPECT(tree.updateNode(p, -1.0f)->getLogOdds() == 1.197f);
    EXPECT(!tree.isNodeOccupied(tree.search(p)));
    EXPECT(code_of([&] { tree.setClampingThresMax(0.3); }) == OCTOFIX_BAD_MODEL);
    tree.setResolution(0.2);
    EXPECT(tree.getResolution() == 0.2);
    EXPECT(tree.search(octofix::point3d(0.15f, 0.15f, 0.15f))->getLogOdds() == 1.197f);
    const float nan = std::numeric_limits<float>::quiet_NaN();
    const float infinity = std::numeric_limits<float>::infinity();
    octofix::OcTreeNode *node = tree.search(octofix::point3d(0.15f, 0.15f, 0.15f));
    EXPECT(code_of([&] { tree.updateNode(p, nan); }) == OCTOFIX_BAD_ARGUMENT);
    EXPECT(code_of([&] { tree.setNodeValue(p, -nan); }) == OCTOFIX_BAD_ARGUMENT);
    EXPECT(code_of([&] { tree.updateNode(octofix::OcTreeKey(0, 0, 0), nan); }) ==
           OCTOFIX_BAD_ARGUMENT);
    EXPECT(code_of([&] { node->setLogOdds(nan); }) == OCTOFIX_BAD_ARGUMENT);
    EXPECT(code_of([&] { node->addValue(nan); }) == OCTOFIX_BAD_ARGUMENT);
    EXPECT(tree.getNumLeafNodes() == 1 && tree.begin_leafs()->getLogOdds() == 1.197f);
    EXPECT(tree.setNodeValue(p, infinity)->getLogOdds() == 2.197f);
    EXPECT(tree.updateNode(p, -infinity)->getLogOdds() == -2.0f);
    tree.enableChangeDetection(true);
    tree.updateNode(octofix::OcTreeKey(9, 9, 9), true);
    tree.setResolution(0.1); // the keys stay, and so do their changes
    EXPECT(tree.getResolution() == 0.1 && tree.numChangesDetected() == 1);
    EXPECT(tree.search(octofix::OcTreeKey(9, 9, 9))->getLogOdds() == 2.197f);
    EXPECT(code_of([&] { tree.setOccupancyThres(1); }) == OCTOFIX_BAD_MODEL);
    std::istringstream empty;
    EXPECT(is_unsupported([&] { octofix::OcTree::read(empty); }));
}

/// An .ot file has all digits of the resolution, whatever stream it is written to.
void try_resolutions() {
    octofix::OcTree tree(0.123456789);
    tree.setNodeValue(octofix::OcTreeKey(32768, 32768, 32768), 0.5f);
    std::ostringstream out;
    out << std::setprecision(2) << std::hex;
    EXPECT(tree.write(out));
    const std::string head =
        "# Octomap OcTree file\n# (feel free to add / change comments, but leave the first line as "
        "it is!)\n#\nid OcTree\nsize 17\nres 0.123456789\ndata\n";
    EXPECT(out.str().size() == head.size() + 17 * 5); // each node a float and a byte
    EXPECT(out.str().compare(0, head.size(), head) == 0);
}

/// A program whose locale has a comma reads and writes files as others do.
void try_locales() {
    struct comma : std::numpunct<char> {
        char do_decimal_point() const override { return ','; }
        char do_thousands_sep() const override { return '.'; }
        std::string do_grouping() const override { return "\3"; }
    };
    octofix::OcTree tree(0.05), read(0.1);
    tree.updateNode(1, 2, 3, true);
    std::stringstream plain, file, values, again;
    EXPECT(tree.writeBinary(plain) && tree.write(values));
    const std::locale before = std::locale::global(std::locale(std::locale(), new comma));
    EXPECT(tree.writeBinary(file) && file.str() == plain.str());
    EXPECT(tree.write(again) && again.str() == values.str());
    EXPECT(read.readBinary(file) && read.getResolution() == 0.05 && read.search(1, 2, 3));
    std::locale::global(before);
}

void try_poses() {
    const octofix::Pose6D pose(1, 2, 3, 0.1, -0.2, 2.5);
    EXPECT(std::fabs(pose.roll() - 0.1) < 1e-6 && std::fabs(pose.pitch() + 0.2) < 1e-6);
    EXPECT(std::fabs(pose.yaw() - 2.5) < 1e-6);
    const octofix::point3d there = pose.inv().transform(pose.transform({4, 5, 6}));
    EXPECT(there.distance({4, 5, 6}) < 1e-5);
    octofix::point3d ahead(1, 0, 0);
    ahead.rotate_IP(0, 0, std::acos(0.0)); // a quarter turn to the left
    EXPECT(ahead.distance({0, 1, 0}) < 1e-6);
}

void try_blocks() {
    octofix::OcTree tree(0.1);
    const octofix::OcTreeKey key(32770, 32770, 32770);
    for (unsigned i = 0; i < 64; ++i)
        tree.updateNode(octofix::OcTreeKey(static_cast<octofix::key_type>(32768 + i % 4),
                                           static_cast<octofix::key_type>(32768 + i / 4 % 4),
                                           static_cast<octofix::key_type>(32768 + i / 16)),
                        true, true);
    EXPECT(tree.search(key, 14)->getLogOdds() == 0.847f); // also while inner values are old
    EXPECT(tree.size() == 15 && tree.getNumLeafNodes() == 1); // of the least tree: one leaf of 64
    tree.expand();
    EXPECT(tree.size() == 15 + 8 + 64 && tree.getNumLeafNodes() == 64);
    tree.prune();
    tree.updateInnerOccupancy();
    EXPECT(tree.getNumLeafNodes() == 1 && tree.begin_leafs().getDepth() == 14);
    tree.begin_leafs()->setLogOdds(-0.5f);
    EXPECT(tree.search(key)->getLogOdds() == -0.5f);
    EXPECT(tree.deleteNode(key, 15) && !tree.search(key) && !tree.deleteNode(key));
    EXPECT(tree.size() == 15 + 7); // the blocks of depth 0 to 14, and seven leaves
    EXPECT(!tree.nodeHasChildren(tree.search(octofix::OcTreeKey(32768, 32768, 32768))));
    const auto first = tree.begin_leafs();
    const octofix::OcTreeNode &kept = *first; // good as long as the iterator stands there
    for (unsigned i = 0; i < 5000; ++i) tree.search(key, 14);
    tree.updateNode(octofix::OcTreeKey(0, 0, 0), true);
    EXPECT(kept.getLogOdds() == -0.5f && first.getDepth() == 15 && !kept.hasChildren());
    tree.deleteNode(octofix::OcTreeKey(0, 0, 0));
    tree.setBBXMin({-9000, 0, 0});
    tree.setBBXMax({9000, 0.1f, 0.1f});
    tree.useBBXLimit(true);
    octofix::Pointcloud cloud;
    const float nan = std::numeric_limits<float>::quiet_NaN();
    cloud.push_back(2, 0.05f, 0.05f);
    cloud.push_back(nan, 0, 0);
    cloud.push_back(1e30f, 0, 0);
    cloud.push_back(2, 2, 2);
    tree.insertPointCloud(cloud, {0.05f, 0.05f, 0.05f});
    EXPECT(tree.search(2, 0.05, 0.05) && !tree.search(2, 2, 2));
    tree.setBBXMax({-9001, 0, 0});
    const std::size_t size = tree.size();
    tree.insertPointCloud(cloud, {0.05f, 0.05f, 0.05f});
    EXPECT(tree.size() == size);
    octofix::OcTree copy(tree);
    tree.clear();
    EXPECT(tree.size() == 0 && tree.getRoot() == nullptr && tree.begin() == tree.end());
    tree = copy;
    EXPECT(tree == copy && tree.size() == size && tree.bbxSet());
    octofix::OcTree far(0.1), farther(0.1);
    far.insertPointCloud(cloud, {0.05f, 0.05f, 0.05f});
    farther.insertPointCloud(cloud, {0.05f, 0.05f, 0.05f}, std::numeric_limits<double>::max());
    EXPECT(far == farther && far.size() > 0);
}

void try_changes() {
    octofix::OcTree tracked(0.1), other(0.2);
    const octofix::point3d p(0.05f, 0.05f, 0.05f);
    tracked.enableChangeDetection(true);
    other.updateNode(p, true);
    tracked.swapContent(other);
    EXPECT(tracked.getResolution() == 0.2 && tracked.search(p) && !other.search(p));
    EXPECT(tracked.numChangesDetected() == 0);
    tracked.updateNode(p, -2.0f);
    EXPECT(tracked.numChangesDetected() == 1 && !tracked.changedKeysBegin()->second);
    other.updateNode(p, true);
    EXPECT(other.numChangesDetected() == 0);
    other = tracked;
    EXPECT(other.isChangeDetectionEnabled() && other.numChangesDetected() == 1);
    tracked.clear();
    tracked.updateNode(p, true); // a voxel that has turned before is told so
    EXPECT(tracked.numChangesDetected() == 1 && !tracked.changedKeysBegin()->second);
    tracked.resetChangeDetection();
    EXPECT(tracked.numChangesDetected() == 0);
}

void try_merges() {
    const octofix::point both = metres(0, 0, 0), mine = metres(1, 0, 0), theirs = metres(2, 0, 0);
    const auto merged_by = [&](octofix::rule by) {
        octofix::map world(0.1), other(0.1);
        world.set(both, 850);
        world.set(mine, 5);
        other.set(both, -400);
        other.set(theirs, 6);
        world.merge(other, by);
        EXPECT(world.get(mine) == 5 && world.get(theirs) == 6);
        EXPECT(other.get(both) == -400 && !other.get(mine));
        return world.get(both);
    };
    EXPECT(merged_by(octofix::rule::first) == 850);
    EXPECT(merged_by(octofix::rule::greatest) == 850);
    EXPECT(merged_by(octofix::rule::least) == -400);
    octofix::map world(0.1), coarse(0.2);
    octofix::map surer(0.1, {850, -400, -2000, 3500, 1});
    world.set(both, 850);
    world.merge(world, octofix::rule::least); // is as it was
    EXPECT(world.get(both) == 850);
    EXPECT(code_of([&] { world.merge(coarse); }) == OCTOFIX_OTHER_RESOLUTION);
    EXPECT(code_of([&] { world.merge(surer); }) == OCTOFIX_OTHER_ODDS);
    octofix::map moved(std::move(coarse));
    EXPECT(code_of([&] { world.merge(coarse); }) == OCTOFIX_CLOSED);
    EXPECT(code_of([&] { coarse.merge(coarse); }) == OCTOFIX_CLOSED);
    EXPECT(world.leaves().size() == 1);
    const octofix::least_tree least = world.least_tree();
    EXPECT(least.groups == 16 && least.nodes == 17 && least.leaves == 1);
}

void try_threads() {
    octofix::OcTree tree(0.1);
    octofix::Pointcloud cloud;
    for (int i = -150; i < 150; i++)
        cloud.push_back(3, 0.01f * static_cast<float>(i), 0.02f * static_cast<float>(i % 50));
    tree.insertPointCloud(cloud, {0, 0, 0}, -1, true);
    const octofix::OcTree &shared = tree;
    const auto ask = [&shared](std::size_t *sum) {
        const octofix::map &world = shared.exact_map();
        const auto origin = metres(0, 0, 0), wall = metres(3, 0.1, 0.2);
        *sum += world.get_all(std::array{origin, wall}).size();
        *sum += world.cast(origin, wall, true).key.x;
        *sum += world.leaves(origin, wall).size() + world.bounds()->high.y + world.save().size();
        for (auto it = shared.begin_leafs(), end = shared.end_leafs(); it != end; ++it) ++*sum;
        for (int i = 0; i < 2000; i++)
            *sum += shared.search(1.5, 0.001 * i, 0.1, 12 + i % 5) != nullptr;
        *sum += shared.size() + shared.getNumLeafNodes() + world.least_tree().nodes;
    };
    std::size_t alone = 0, sums[4] = {0, 0, 0, 0};
    std::vector<std::thread> threads;
    for (std::size_t &sum : sums) threads.emplace_back(ask, &sum);
    for (std::thread &thread : threads) thread.join();
    ask(&alone);
    for (const std::size_t sum : sums) EXPECT(sum == alone && sum > 0);
}

} // namespace

int main(int, char **words) {
    try_lengths();
    try_floats();
    try_unfinite();
    try_turns();
    try_far_points();
    try_refusals();
    try_copies();
    try_files(words[1]);
    try_grid();
    try_keeping();
    try_moving();
    try_voxels();
    try_keys();
    try_models();
    try_resolutions();
    try_locales();
    try_poses();
    try_blocks();
    try_changes();
    try_merges();
    try_threads();
    std::printf("faces: %d failed\n", failed);
    return failed != 0;
}
