// Leaves are listed by one walk, however many they are: the calls of C that list them are counted.
// To be linked with --wrap of these.
#include <octofix.hpp>

#include <cstdio>

namespace {

int walks = 0;

} // namespace

extern "C" {
std::uint32_t __real_octofix_leaves(const octofix_map *, octofix_block *, std::size_t,
                                    std::size_t *);
std::uint32_t __real_octofix_leaves_of(const octofix_map *, std::uint32_t, octofix_block *,
                                       std::size_t, std::size_t *);

std::uint32_t __wrap_octofix_leaves(const octofix_map *map, octofix_block *blocks,
                                    std::size_t room, std::size_t *count) {
    walks++;
    return __real_octofix_leaves(map, blocks, room, count);
}
std::uint32_t __wrap_octofix_leaves_of(const octofix_map *map, std::uint32_t sought,
                                       octofix_block *blocks, std::size_t room,
                                       std::size_t *count) {
    walks++;
    return __real_octofix_leaves_of(map, sought, blocks, room, count);
}
}

int main() {
    octofix::map world(0.1);
    // (every other voxel of a row: no two are one leaf)
    for (int x = 0; x < 1000; x++) world.set(octofix::metres(0.05 + 0.2 * x, 0.05, 0.05), 850);
    const bool are_all = world.leaves().size() == 1000;
    const bool are_once = walks == 1;
    const bool are_sought = world.leaves(octofix::sought::occupied).size() == 1000;
    const bool are_sought_once = walks == 2;
    const int failed = !are_all + !are_once + !are_sought + !are_sought_once;
    std::printf("walks: %d failed\n", failed);
    return failed != 0;
}
