// Snapshots of more bytes than a file of a map may have: the call of C is stood in for by one that
// answers such a length, so that none has to be made. To be linked with --wrap=octofix_snapshot.
#include <octofix.hpp>

#include <cstdio>
#include <string>

namespace {

std::size_t length = 0; // that a snapshot is said to have

} // namespace

extern "C" std::uint32_t __wrap_octofix_snapshot(const octofix_map *, std::uint8_t *, std::size_t,
                                                 std::size_t *told) {
    *told = length;
    return OCTOFIX_SMALL_BUFFER;
}

namespace {

template <class Call> std::string refusal_of(Call call) {
    try {
        call();
    } catch (const octofix::refused &error) {
        return error.what();
    } catch (const std::exception &error) {
        return error.what();
    }
    return "";
}

} // namespace

int main(int, char **words) {
    const std::filesystem::path kept = std::filesystem::path(words[1]) / "kept.snap";
    octofix::detail::write_file(kept, {1, 2, 3});
    const octofix::map world(0.1);
    length = (std::size_t{1} << 30) + 1;
    const std::string wanted = "refused 34 FileTooLarge count 1073741825";
    int failed = 0;
    failed += refusal_of([&] { return world.snapshot(); }) != wanted;
    failed += refusal_of([&] { return world.copy(); }) != ""; // (which needs no snapshot)
    failed += refusal_of([&] { world.snapshot_to(kept); }) != wanted;
    failed += octofix::detail::read_file(kept) != octofix::bytes{1, 2, 3};
    failed += std::string(octofix::refused(34).hint()).find("2^30") == std::string::npos;
    std::printf("large: %d failed\n", failed);
    return failed != 0;
}
