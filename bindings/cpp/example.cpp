// A map from scans to files: what octofix.hpp has, in one go.
#include <octofix.hpp>

#include <array>
#include <iostream>
#include <limits>

using octofix::metres;

namespace {

void say(const char *what, std::optional<std::int32_t> value) {
    std::cout << what << ": ";
    if (!value) {
        std::cout << "unknown\n";
        return;
    }
    const long percent = std::lround(100 * octofix::probability_of(*value));
    std::cout << *value << " (" << percent << " %)\n";
}

void scan(octofix::map &world) {
    // The frame of the sensor, in any row of things with x, y, z or [0], [1], [2].
    const std::array<std::array<float, 3>, 2> wall_and_box = {{{2, 0, 0}, {0, 1, 0}}};
    const auto seen = world.scan(octofix::pose_at(0.05, 0.05, 0.05), metres(wall_and_box));
    std::cout << "hits " << seen.hits << " frees " << seen.frees << '\n';

    // After a quarter turn to the left, with a range of 1.5 m.
    octofix::scan_options near;
    near.range = 1.5;
    const std::vector<octofix::point> wall = {metres(2, 0, 0)};
    const auto left = octofix::turned(metres(0.05, 0.05, 0.05), 1, 0, 0, 1);
    const auto again = world.scan(left, wall, near);
    std::cout << "hits " << again.hits << " frees " << again.frees << '\n';
}

void ask(const octofix::map &world) {
    say("wall", world.get(metres(2.05, 0.05, 0.05)));
    say("behind it", world.get(metres(2.15, 0.05, 0.05)));
    say("box", world.get(metres(0.05, 1.05, 0.05)));
    say("all", world.get(metres(0, 0, 0), 0));

    const auto stop = world.cast(metres(0.05, 0.05, 0.05), metres(2.95, 0.05, 0.05));
    std::cout << "stopped " << stop.code << " at " << stop.key.x << '\n';

    const std::size_t occupied = world.leaves(octofix::sought::occupied).size();
    std::size_t known = 0;
    for (const auto &voxel : world.known_voxels()) known += voxel.value != 0;
    std::cout << "occupied " << occupied << " of " << known << '\n';

    if (const auto box = world.bounds(octofix::sought::occupied))
        std::cout << "from " << box->low.x << ' ' << box->low.y << " to " << box->high.x << ' '
                  << box->high.y << '\n';
    std::cout << "ray of " << octofix::ray(0.1, metres(0, 0, 0), metres(0.5, 0, 0)).size() << '\n';
}

void edit(octofix::map &world) {
    world.track();
    world.set(metres(1.05, 0.05, 0.05), 1000);
    world.edit_box(metres(0, 1, 0), metres(0, 1.05, 0), octofix::event::forget);
    for (const auto &it : world.changes())
        std::cout << "changed " << it.key.x << ' ' << it.key.y << ": "
                  << (it.kind == octofix::change_kind::lost ? "lost" : "occupied") << '\n';
}

template <class Call> void refuse(Call call) {
    try {
        call();
    } catch (const octofix::refused &error) {
        std::cout << error.what() << '\n';
    } catch (const octofix::bad_length &error) {
        std::cout << "bad length at " << error.index() << '\n';
    }
}

} // namespace

int main() {
    octofix::map world(0.1);
    scan(world);
    ask(world);

    octofix::map copy = world.copy();
    edit(copy);
    octofix::map moved = std::move(copy);
    say("the copy", moved.get(metres(1.05, 0.05, 0.05)));
    say("the map", world.get(metres(1.05, 0.05, 0.05)));
    moved.load(world.save());
    say("loaded", moved.get(metres(1.05, 0.05, 0.05)));

    const double infinity = std::numeric_limits<double>::infinity();
    const double points[] = {1, 0, 0, 0, infinity, 0};
    refuse([&] { world.scan(octofix::pose_at(0, 0, 0), metres(points, 2)); });
    refuse([&] { world.scan(octofix::pose_at(0, 0, 0), std::array{metres(4000, 0, 0)}); });
    refuse([&] { return world.get(metres(0, 0, 0), 17); });
    refuse([&] { copy.clear(); }); // it was moved from
}
