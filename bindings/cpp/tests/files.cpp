// Files: what is written where something stands, links, devices and pipes, what stays where a write
// fails, and maps of files whatever their resolution.
#include <octofix_octree.hpp>

#include <csignal>
#include <cstdio>
#include <string>
#include <thread>

#include <sys/resource.h>

namespace fs = std::filesystem;
using octofix::metres;

namespace {

int failed = 0;

void expect(int line, bool holds) {
    if (holds) return;
    failed++;
    std::printf("line %d doesn't hold\n", line);
}

#define EXPECT(what) expect(__LINE__, what)

/// What errno a call fails with of this file, 0 where it doesn't fail, -1 where it names another.
template <class Call> int error_of(const fs::path &path, Call call) {
    try {
        call();
    } catch (const fs::filesystem_error &error) {
        return error.path1() == path ? error.code().value() : -1;
    }
    return 0;
}

/// The code that a call is refused with, or 0.
template <class Call> std::uint32_t code_of(Call call) {
    try {
        call();
    } catch (const octofix::refused &error) {
        return error.code();
    }
    return 0;
}

std::ptrdiff_t count_of(const fs::path &folder) {
    return std::distance(fs::directory_iterator(folder), {});
}

struct stat status_of(const fs::path &path) {
    struct stat found{};
    EXPECT(::lstat(path.c_str(), &found) == 0);
    return found;
}

octofix::map some_map(double res = 0.1) {
    octofix::map world(res);
    world.set(metres(1, 2, 3), 700);
    return world;
}

void try_modes(const fs::path &folder) {
    const octofix::map world = some_map();
    const fs::path file = folder / "kept.bt";
    world.snapshot_to(file);
    fs::permissions(file, fs::perms(0640));
    const bool is_root = ::chown(file.c_str(), 12345, 12346) == 0;
    world.save_to(file);
    const struct stat kept = status_of(file);
    EXPECT((kept.st_mode & 07777) == 0640);
    EXPECT(!is_root || (kept.st_uid == 12345 && kept.st_gid == 12346));
    EXPECT(octofix::detail::read_file(file) == world.save());
    const mode_t mask = ::umask(027);
    world.save_to(folder / "new.bt");
    ::umask(mask);
    EXPECT((status_of(folder / "new.bt").st_mode & 07777) == 0640);
    EXPECT(count_of(folder) == 2);
}

void try_links(const fs::path &folder) {
    const octofix::map world = some_map();
    fs::create_directory(folder / "below");
    fs::create_symlink("below/world.bt", folder / "link");
    fs::create_symlink("link", folder / "second");
    fs::create_symlink(folder / "loop", folder / "loop");
    world.save_to(folder / "second"); // which leads to nothing yet
    EXPECT(octofix::detail::read_file(folder / "below/world.bt") == world.save());
    world.snapshot_to(folder / "link");
    EXPECT(octofix::detail::read_file(folder / "below/world.bt") == world.snapshot());
    EXPECT(fs::is_symlink(folder / "link") && fs::is_symlink(folder / "second"));
    EXPECT(error_of(folder / "loop", [&] { world.save_to(folder / "loop"); }) == ELOOP);
    EXPECT(count_of(folder) == 4 && count_of(folder / "below") == 1);
}

void try_pipes_and_devices(const fs::path &folder) {
    const octofix::map world = some_map();
    const fs::path pipe = folder / "pipe", full = folder / "full";
    EXPECT(::mkfifo(pipe.c_str(), 0600) == 0);
    octofix::bytes came;
    std::thread reader([&] { came = octofix::detail::read_file(pipe); });
    world.save_to(pipe);
    reader.join();
    EXPECT(came == world.save() && fs::is_fifo(pipe));
    EXPECT(octofix::detail::read_file("/dev/zero", 100'000).size() > 100'000);
    fs::create_symlink("/dev/full", full);
    EXPECT(error_of(full, [&] { world.save_to(full); }) == ENOSPC);
    EXPECT(fs::is_character_file("/dev/full"));
    octofix::OcTree tree(0.1);
    EXPECT(!tree.writeBinary(full.string()) && !tree.write(full.string()));
    world.save_to("/dev/null");
    EXPECT(fs::is_character_file("/dev/null"));
    EXPECT(error_of(folder, [&] { world.save_to(folder); }) == EISDIR);
    EXPECT(count_of(folder) == 2);
}

/// A write that fails half way leaves what stood, and nothing beside it.
void try_failing_writes(const fs::path &folder) {
    const octofix::map world = some_map();
    const fs::path file = folder / "world.bt", fresh = folder / "new.bt";
    world.save_to(file);
    const octofix::bytes before = octofix::detail::read_file(file);
    octofix::OcTree tree(0.1);
    tree.updateNode(1, 2, 3, true);
    rlimit most{};
    getrlimit(RLIMIT_FSIZE, &most);
    const rlimit few = {3, most.rlim_max};
    std::signal(SIGXFSZ, SIG_IGN);
    setrlimit(RLIMIT_FSIZE, &few);
    EXPECT(error_of(file, [&] { world.snapshot_to(file); }) == EFBIG);
    EXPECT(error_of(fresh, [&] { world.save_to(fresh); }) == EFBIG);
    EXPECT(!tree.writeBinary(file.string()) && !tree.writeBinaryConst(fresh.string()));
    EXPECT(!tree.write(file.string()));
    setrlimit(RLIMIT_FSIZE, &most);
    EXPECT(count_of(folder) == 1 && octofix::detail::read_file(file) == before);
    const fs::path nowhere = folder / "nowhere" / "world.bt", below = "/dev/full/world.bt";
    EXPECT(error_of(nowhere, [&] { world.save_to(nowhere); }) == ENOENT);
    EXPECT(error_of(below, [&] { world.save_to(below); }) == ENOTDIR);
    EXPECT(error_of(nowhere, [&] { (void)octofix::map::from_file(nowhere); }) == ENOENT);
    EXPECT(tree.writeBinary(file.string()) && tree.writeBinary(fresh.string()));
    EXPECT(octofix::detail::read_file(file) == octofix::detail::read_file(fresh));
    EXPECT(count_of(folder) == 2);
}

/// A file that may not be written to stays, though others may be put in its folder.
void try_protected(const fs::path &folder) {
    const octofix::map world = some_map();
    const fs::path file = "kept.bt", above = fs::current_path();
    world.save_to(folder / file);
    fs::permissions(folder / file, fs::perms(0444));
    fs::permissions(folder, fs::perms(0777));
    const bool is_root = ::geteuid() == 0;
    fs::current_path(folder);
    EXPECT(!is_root || ::seteuid(65534) == 0);
    EXPECT(error_of(file, [&] { world.snapshot_to(file); }) == EACCES);
    world.save_to("new.bt");
    EXPECT(!is_root || ::seteuid(0) == 0);
    fs::current_path(above);
    EXPECT(octofix::detail::read_file(folder / file) == world.save() && count_of(folder) == 2);
}

void try_maps_of_files(const fs::path &folder) {
    for (const double res : {0.1, 0.05, 0.3333}) {
        const octofix::map world = some_map(res);
        world.save_to(folder / "world.bt");
        world.snapshot_to(folder / "world.snap");
        const octofix::map classes = octofix::map::from_file(folder / "world.bt");
        EXPECT(classes.resolution() == res && classes.get(metres(1, 2, 3)) == 3500);
        EXPECT(classes.save() == world.save());
        const octofix::map values = octofix::map::from_file(folder / "world.snap");
        EXPECT(values.resolution() == res && values.snapshot() == world.snapshot());
        const octofix::odds mine = {900, -300, -1000, 2000, 10};
        const octofix::map other = octofix::map::from_bt(world.save(), mine, {1000, 1000});
        EXPECT(other.get(metres(1, 2, 3)) == 2000 && other.settings().limits.max_groups == 1000);
        EXPECT(octofix::map::from_snapshot(world.snapshot(), mine).settings().odds.hit == 850);
    }
    EXPECT(code_of([] { (void)octofix::map::from_bt({}); }) == OCTOFIX_NOT_OCTOMAP);
    EXPECT(code_of([] { (void)octofix::map::from_snapshot({}); }) == OCTOFIX_BAD_MAGIC);
    EXPECT(code_of([] { (void)octofix::map::from_bt({}, {0, 0, 0, 0, 0}); }) == OCTOFIX_BAD_MODEL);
    const octofix::bytes whole = some_map(0.2).save(), part(whole.begin(), whole.end() - 1);
    EXPECT(code_of([&] { (void)octofix::map::from_bt(part); }) == OCTOFIX_TRUNCATED);
}

} // namespace

int main(int, char **words) {
    const fs::path room = words[1];
    const auto in = [&](const char *name) {
        fs::create_directories(room / name);
        return room / name;
    };
    try_modes(in("modes"));
    try_links(in("links"));
    try_pipes_and_devices(in("pipes"));
    try_failing_writes(in("failing"));
    try_protected(in("protected"));
    try_maps_of_files(in("maps"));
    std::printf("files: %d failed\n", failed);
    return failed != 0;
}
