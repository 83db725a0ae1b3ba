// octofix.hpp: the occupancy map of octofix.h for C++17.
//
//     octofix::map world(0.1);                                          // voxels of 0.1 m
//     world.scan(octofix::pose_at(0, 0, 0.5), octofix::metres(cloud));  // any points with x, y, z
//     if (auto value = world.get(octofix::metres(2, 0, 0.5))) { .. }    // known, and how sure
//     for (const auto &leaf : world.leaves()) { .. }
//
// Units. Points are octofix_point, in whole nanometres, and metres() makes them: a number of metres
// is multiplied by 10^9 in double and rounded to the nearest whole number, halves to the even one.
// A number that isn't finite, or of magnitude 10^7 or more, and a range below 0, is refused by
// bad_length, which has the index of the first point at fault; that happens before the map is
// called. What is known of a voxel, its value, is in thousandths of log-odds, as in octofix.h.
//
// Errors. A call that the map refuses throws refused, with the code of octofix.h, its name and its
// details; where memory runs out it throws std::bad_alloc. A call that throws has changed no voxel,
// but for edit_all, whose edits_refused and edits_out_of_memory say how many edits were done. What
// isn't refused but has no answer (nothing known, no box) is an empty optional.
//
// Threads. Calls that are const may run side by side on one map, as long as no other call on it
// runs beside them. A map may be moved to another thread. There is no lock.
#ifndef OCTOFIX_HPP
#define OCTOFIX_HPP

#if __cplusplus < 201703L
#error "octofix.hpp is for C++17 or newer: compile with -std=c++17"
#else

#include "octofix.h"
#include "octofix/blocks.hpp"
#include "octofix/errors.hpp"
#include "octofix/files.hpp"
#include "octofix/metres.hpp"
#include "octofix/poses.hpp"
#include "octofix/types.hpp"

#include <array>
#include <cstddef>
#include <cstdint>
#include <filesystem>
#include <optional>
#include <utility>
#include <vector>

namespace octofix {

/// A map. It is moved, and copied by copy() alone; one that was moved from is closed.
class map {
  public:
    /// An unknown map of voxels of res metres.
    explicit map(double res, const odds &log_odds = default_odds,
                 const limits &most = default_limits) {
        details named{};
        const std::int64_t edge = detail::edge_of(res);
        detail::check(octofix_open(&handle_, edge, &log_odds, &most, &named), named);
    }
    /// The same of a float, which stands for the decimal that it prints: 0.05f for 0.05.
    template <class Float, class = detail::if_float<Float>>
    explicit map(Float res, const odds &log_odds = default_odds,
                 const limits &most = default_limits)
        : map(detail::decimal_of(res), log_odds, most) {}
    map(map &&other) noexcept : handle_(std::exchange(other.handle_, octofix_map{})) {}
    map &operator=(map &&other) noexcept {
        map taken(std::move(other));
        std::swap(handle_, taken.handle_);
        return *this;
    }
    map(const map &) = delete;
    map &operator=(const map &) = delete;
    ~map() { octofix_close(&handle_); }

    /// A map of the bytes of a .bt file, with the resolution of the file.
    [[nodiscard]] static map from_bt(view<std::uint8_t> file, const odds &log_odds = default_odds,
                                     const limits &most = default_limits) {
        return of_any_edge(log_odds, most, [&](map &made) { made.load(file); });
    }
    /// A map of a snapshot, with its resolution; its log-odds, where it has some, come before
    /// these.
    [[nodiscard]] static map from_snapshot(view<std::uint8_t> file,
                                           const odds &log_odds = default_odds,
                                           const limits &most = default_limits) {
        return of_any_edge(log_odds, most, [&](map &made) { made.restore(file); });
    }
    /// A map of a file, a .bt file or a snapshot.
    [[nodiscard]] static map from_file(const std::filesystem::path &path,
                                       const odds &log_odds = default_odds,
                                       const limits &most = default_limits) {
        const bytes file = detail::read_map(path);
        return detail::is_snapshot(file) ? from_snapshot(file, log_odds, most)
                                         : from_bt(file, log_odds, most);
    }

    /// A map of its own that is equal in all that is asked of it, its limits, its staleness and its
    /// mark among that.
    [[nodiscard]] map copy() const {
        map other;
        detail::check(octofix_copy(&handle_, &other.handle_));
        return other;
    }
    /// Another name of copy().
    [[nodiscard]] map clone() const { return copy(); }

    // Settings.

    [[nodiscard]] octofix::settings settings() const {
        octofix::settings now{};
        detail::check(octofix_settings_of(&handle_, &now));
        return now;
    }
    [[nodiscard]] double resolution() const { return static_cast<double>(settings().res) / 1e9; }
    [[nodiscard]] bool is_occupied(std::int32_t value) const {
        return value >= settings().odds.thr;
    }
    /// The bytes that the map holds now.
    [[nodiscard]] std::uint64_t memory() const {
        std::uint64_t held = 0;
        detail::check(octofix_memory(&handle_, &held));
        return held;
    }

    // Edits.

    void edit(const point &at, event what, std::int32_t number = 0, bool lazy = false) {
        details named{};
        detail::check(
            octofix_edit(&handle_, &at, static_cast<std::uint32_t>(what), number, lazy, &named),
            named);
    }
    void add(const point &at, std::int32_t number, bool lazy = false) {
        edit(at, event::add, number, lazy);
    }
    void set(const point &at, std::int32_t number, bool lazy = false) {
        edit(at, event::set, number, lazy);
    }
    void forget(const point &at, bool lazy = false) { edit(at, event::forget, 0, lazy); }
    /// Each voxel of the box from the voxel of one point to that of the other.
    void edit_box(const point &low, const point &high, event what, std::int32_t number = 0) {
        details named{};
        detail::check(octofix_edit_box(&handle_, &low, &high, static_cast<std::uint32_t>(what),
                                       number, &named),
                      named);
    }
    /// Forgets each voxel outside of that box, and changes none in it.
    void keep_box(const point &low, const point &high) {
        details named{};
        detail::check(octofix_keep_box(&handle_, &low, &high, &named), named);
    }
    /// One edit after another. At the first that isn't done it throws edits_refused, or
    /// edits_out_of_memory.
    void edit_all(view<octofix::edit> edits, bool lazy = false) {
        std::vector<octofix_point_edit> all;
        all.reserve(edits.size());
        for (const octofix::edit &it : edits)
            all.push_back({it.at, static_cast<std::uint32_t>(it.what), it.number});
        const view<octofix_point_edit> row(all);
        std::size_t done = 0;
        details named{};
        const std::uint32_t code =
            octofix_edit_all(&handle_, detail::start(row), row.size(), lazy, &done, &named);
        if (code == OCTOFIX_MEMORY) throw edits_out_of_memory(done);
        if (code != OCTOFIX_DONE) throw edits_refused(code, named, done);
    }

    /// Beams from a sensor to points in its own frame. A scan whose beams meet more voxels than the
    /// map's limit lets one have is done all the same, though in parts and never lazily: each voxel
    /// is hit or freed once, as ever. (Where memory runs out for that in a map with a mark, a part
    /// of it may be done.) A single beam of too many voxels is refused.
    octofix::counted scan(const pose &sensor, view<point> points, const scan_options &how = {}) {
        return scanned(&octofix_scan, sensor, points, how);
    }
    /// The same, with points that are turned in double.
    octofix::counted scan(const turned_pose &sensor, view<point> points,
                          const scan_options &how = {}) {
        return scan(detail::upright_at(sensor.at), detail::turned_ways(sensor.by, points), how);
    }
    /// Beams from a place to points in the frame of the map.
    octofix::counted scan_from(const point &origin, view<point> points,
                               const scan_options &how = {}) {
        return scanned(&octofix_scan_in_map, origin, points, how);
    }

    /// Sets the update box: from now on scans change only voxels of it.
    void limit(const point &low, const point &high) {
        details named{};
        detail::check(octofix_limit(&handle_, &low, &high, &named), named);
    }
    void no_limit() { detail::check(octofix_no_limit(&handle_)); }
    /// The update box.
    [[nodiscard]] std::optional<box> window() const { return found(&octofix_window); }

    void refresh() { detail::check(octofix_refresh(&handle_)); }
    void prune() { detail::check(octofix_prune(&handle_)); }
    void clear() { detail::check(octofix_clear(&handle_)); }
    void max_likelihood() { detail::check(octofix_max_likelihood(&handle_)); }
    /// Takes in what another map of the same resolution and log-odds knows: a voxel that one of
    /// them knows gets its value, and one that both know the value that the rule takes. The other
    /// map keeps its voxels; both are pruned.
    void merge(map &other, rule by = rule::first) {
        if (this == &other) return prune();
        details named{};
        detail::check(octofix_merge(&handle_, &other.handle_, static_cast<std::uint32_t>(by),
                                    &named),
                      named);
    }
    /// The same of the other map moved by this many voxels on each axis: a voxel takes what the
    /// other map has that far behind it. The other map stays as it is.
    void merge_shifted(const map &other, std::int32_t dx, std::int32_t dy, std::int32_t dz,
                       rule by = rule::first) {
        if (this == &other) return merge_shifted(other.copy(), dx, dy, dz, by);
        details named{};
        detail::check(octofix_merge_shifted(&handle_, &other.handle_,
                                            static_cast<std::uint32_t>(by), &named, dx, dy, dz),
                      named);
    }
    /// Prunes the map, and counts the least tree of its values.
    [[nodiscard]] octofix::counts counts() {
        octofix::counts least{};
        detail::check(octofix_counts_of(&handle_, &least));
        return least;
    }

    // Queries.

    /// The groups, nodes and leaves of the least tree of the map's values. The map stays as it is,
    /// and no list is made.
    [[nodiscard]] octofix::least_tree least_tree() const {
        octofix::least_tree least{};
        detail::check(octofix_least_tree_of(&handle_, &least));
        return least;
    }
    /// The value of the block of this depth that holds the point; none where nothing is known.
    [[nodiscard]] std::optional<std::int32_t> get(const point &at, std::uint32_t depth = 16) const {
        const answer there = answer_at(at, depth);
        if (there.code == OCTOFIX_UNKNOWN) return std::nullopt;
        detail::check(there.code, {there.code == OCTOFIX_OUTSIDE ? 1u : 0u, 0});
        return there.value;
    }
    /// The same with a code, as get_all has it.
    [[nodiscard]] answer answer_at(const point &at, std::uint32_t depth = 16) const {
        answer there{};
        there.code = octofix_get(&handle_, &at, depth, &there.value);
        return there;
    }
    /// An answer for each point, with a code of its own.
    [[nodiscard]] std::vector<answer> get_all(view<point> points, std::uint32_t depth = 16) const {
        std::vector<answer> answers(points.size() + 1);
        detail::check(octofix_get_all(&handle_, detail::start(points), points.size(), depth,
                                      answers.data(), points.size()));
        answers.pop_back();
        return answers;
    }
    /// What stops the straight way from one point to another first.
    [[nodiscard]] stop cast(const point &origin, const point &end,
                            bool ignore_unknown = false) const {
        stop first{};
        details named{};
        const std::uint32_t code =
            octofix_cast(&handle_, &origin, &end, ignore_unknown, &first.key, &named);
        if (code != OCTOFIX_UNKNOWN && code != OCTOFIX_CLEAR) detail::check(code, named);
        first.code = static_cast<std::uint16_t>(code);
        return first;
    }
    /// A stop for each segment, with a code of its own.
    [[nodiscard]] std::vector<stop> cast_all(view<segment> segments,
                                             bool ignore_unknown = false) const {
        std::vector<stop> stops(segments.size() + 1);
        detail::check(octofix_cast_all(&handle_, detail::start(segments), segments.size(),
                                       ignore_unknown, stops.data(), segments.size()));
        stops.pop_back();
        return stops;
    }
    /// The known blocks of a depth that meet a box, by ascending x, then y, then z.
    [[nodiscard]] std::vector<block> list(const point &low, const point &high,
                                          std::uint32_t depth = 16) const {
        return listed_in_box(
            [&](auto *it, auto... out) { return octofix_list(it, &low, &high, depth, out...); });
    }
    /// The largest blocks of one value each, in Morton order: all that is known.
    [[nodiscard]] std::vector<block> leaves() const {
        return listed_leaves([&](auto... out) { return octofix_leaves(&handle_, out...); });
    }
    /// Those that meet a box, each as a whole.
    [[nodiscard]] std::vector<block> leaves(const point &low, const point &high) const {
        return listed_in_box(
            [&](auto *it, auto... out) { return octofix_leaves_in(it, &low, &high, out...); });
    }
    /// Those whose voxels are occupied, or free. Of a map that isn't stale occupied ones are found
    /// without a look at all that is free.
    [[nodiscard]] std::vector<block> leaves(sought what) const {
        return listed_leaves([&](auto... out) {
            return octofix_leaves_of(&handle_, static_cast<std::uint32_t>(what), out...);
        });
    }
    /// Those of them that meet a box, each as a whole.
    [[nodiscard]] std::vector<block> leaves(sought what, const point &low,
                                            const point &high) const {
        return listed_in_box([&](auto *it, auto... out) {
            return octofix_leaves_of_in(it, static_cast<std::uint32_t>(what), &low, &high, out...);
        });
    }
    /// All known voxels: for (voxel it : world.known_voxels()).
    [[nodiscard]] voxels known_voxels() const { return voxels(leaves()); }
    /// What each column of voxels shows between two points, both included: occupied where a voxel
    /// of it is, else free where one is, else unknown. There may be 2^26 columns.
    [[nodiscard]] occupancy_grid grid(const point &low, const point &high) const {
        details named{};
        occupancy_grid found;
        found.cells = listed<std::int8_t>([&](auto *it, auto... out) {
            const std::uint32_t code = octofix_grid(it, &low, &high, out..., &named);
            if (code != OCTOFIX_SMALL_BUFFER) detail::check(code, named);
            return code;
        });
        const voxel_key first = key_of(low), last = key_of(high);
        found.width = last.x - first.x + std::size_t{1};
        found.height = last.y - first.y + std::size_t{1};
        found.resolution = resolution();
        found.x = (first.x - 32768) * found.resolution;
        found.y = (first.y - 32768) * found.resolution;
        return found;
    }
    /// The smallest box that holds all known, all occupied, or all free, voxels.
    [[nodiscard]] std::optional<box> bounds(sought what = sought::known) const {
        return found([&](const octofix_map *it, box *out) {
            return octofix_bounds(it, static_cast<std::uint32_t>(what), out);
        });
    }
    /// The voxel that holds a point. It is refused as a point outside the map is.
    [[nodiscard]] voxel_key key_of(const point &at) const {
        return detail::key_of(at, settings().res);
    }
    /// The voxels that hold points.
    [[nodiscard]] std::vector<voxel_key> keys(view<point> points) const {
        const std::int64_t res = settings().res;
        std::vector<voxel_key> all;
        all.reserve(points.size());
        for (const point &it : points) all.push_back(detail::key_of(it, res));
        return all;
    }
    /// The middle of a block, or of a voxel, in metres: x, y and z.
    [[nodiscard]] std::array<double, 3> center(const block &it) const {
        return detail::center_of(it, resolution());
    }
    [[nodiscard]] std::array<double, 3> center(const voxel_key &it) const {
        return center(detail::block_of(it));
    }
    /// The middles of blocks, or of voxels.
    [[nodiscard]] std::vector<std::array<double, 3>> centers(view<block> blocks) const {
        return detail::centers_of(blocks, resolution());
    }
    [[nodiscard]] std::vector<std::array<double, 3>> centers(view<voxel_key> keys) const {
        std::vector<block> blocks;
        blocks.reserve(keys.size());
        for (const voxel_key &it : keys) blocks.push_back(detail::block_of(it));
        return centers(blocks);
    }
    /// Other names of center().
    [[nodiscard]] std::array<double, 3> middle(const block &it) const { return center(it); }
    [[nodiscard]] std::array<double, 3> middle(const voxel_key &it) const { return center(it); }
    void middle(const block &it, double &x, double &y, double &z) const {
        const auto there = center(it);
        x = there[0], y = there[1], z = there[2];
    }

    // Changes since a mark.

    void track() { detail::check(octofix_track(&handle_)); }
    void untrack() { detail::check(octofix_untrack(&handle_)); }
    [[nodiscard]] std::vector<change> changes() const {
        const std::vector<octofix_change> all = listed<octofix_change>(&octofix_changes);
        std::vector<change> changes;
        changes.reserve(all.size());
        for (const octofix_change &it : all)
            changes.push_back({it.key, static_cast<change_kind>(it.kind)});
        return changes;
    }

    // Files. Those of paths throw std::filesystem::filesystem_error where they can't be read or
    // written. A file that stands, also behind a link, is replaced only where it may be written to,
    // and when the new one is whole, which takes its mode and, where that may be set, its owner.
    // What is no regular file, as a device or a pipe, is written to as it is.

    [[nodiscard]] bytes save() const { return listed<std::uint8_t>(&octofix_save); }
    void load(view<std::uint8_t> file) {
        details named{};
        detail::check(octofix_load(&handle_, detail::start(file), file.size(), &named), named);
    }
    /// One of more than 2^30 bytes, which no call would take, is refused as 34 FileTooLarge, with
    /// how many it would have.
    [[nodiscard]] bytes snapshot() const {
        return listed<std::uint8_t>([](auto *it, auto *first, auto room, auto *length) {
            const std::uint32_t code = octofix_snapshot(it, first, room, length);
            if (code == OCTOFIX_SMALL_BUFFER && *length > detail::most_bytes)
                throw refused(detail::file_too_large, {*length, 0});
            return code;
        });
    }
    void restore(view<std::uint8_t> file) {
        details named{};
        detail::check(octofix_restore(&handle_, detail::start(file), file.size(), &named), named);
    }
    void save_to(const std::filesystem::path &path) const { detail::write_file(path, save()); }
    void load_from(const std::filesystem::path &path) { load(detail::read_map(path)); }
    void snapshot_to(const std::filesystem::path &path) const {
        detail::write_file(path, snapshot());
    }
    void restore_from(const std::filesystem::path &path) { restore(detail::read_map(path)); }

    /// The handle, for a call of octofix.h.
    [[nodiscard]] const octofix_map *handle() const { return &handle_; }
    [[nodiscard]] octofix_map *handle() { return &handle_; }

  private:
    map() = default; // closed

    /// A map with the edge that is found to be that of a file.
    template <class Fill>
    static map of_any_edge(const odds &log_odds, const limits &most, Fill fill) {
        map made(0.1, log_odds, most);
        try {
            fill(made);
            return made;
        } catch (const refused &error) {
            if (error.code() != OCTOFIX_OTHER_RESOLUTION) throw;
            made = map(static_cast<double>(error.details().first) / 1e9, log_odds, most);
        }
        fill(made);
        return made;
    }

    /// All that a query lists.
    template <class T, class Call> std::vector<T> listed(Call call) const {
        return detail::listed<T>([&](auto... out) { return call(&handle_, out...); });
    }
    /// Leaves that a call lists, in one walk where they are no more than there may be.
    template <class Call> std::vector<block> listed_leaves(Call call) const {
        const detail::listed_blocks all(detail::most_leaves(memory()), call);
        return std::vector<block>(all.first.get(), all.first.get() + all.count);
    }
    /// A scan by one of the two calls.
    template <class Call, class Sensor>
    octofix::counted scanned(Call call, const Sensor &sensor, view<point> points,
                             const scan_options &how) {
        const octofix_scan_options options = {detail::range_of(how.range), how.hit, how.miss,
                                              how.lazy};
        octofix::counted seen{};
        details named{};
        const std::uint32_t code = call(&handle_, &sensor, detail::start(points), points.size(),
                                        &options, &seen, &named);
        if (code == OCTOFIX_TOO_MANY_CELLS && points.size() > 1)
            return scanned_in_parts(call, sensor, points, options);
        detail::check(code, named, !points.empty());
        return seen;
    }
    template <class Call, class Sensor>
    inline octofix::counted scanned_in_parts(Call call, const Sensor &sensor, view<point> points,
                                             const octofix_scan_options &options);
    /// The blocks that a query lists of a box.
    template <class Call> std::vector<block> listed_in_box(Call call) const {
        details named{};
        return listed<block>([&](auto *it, auto... out) {
            const std::uint32_t code = call(it, out..., &named);
            if (code != OCTOFIX_SMALL_BUFFER) detail::check(code, named);
            return code;
        });
    }
    /// A box that a query may find.
    template <class Call> std::optional<box> found(Call call) const {
        box there{};
        const std::uint32_t code = call(&handle_, &there);
        if (code == OCTOFIX_NONE) return std::nullopt;
        detail::check(code);
        return there;
    }

    octofix_map handle_{};
};

} // namespace octofix

#include "octofix/parts.hpp"

#endif // C++17
#endif
