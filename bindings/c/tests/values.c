/* What maps hold after several calls: one voxel in each way that it can be asked, leaves whatever
 * was pruned, and merges of two maps. Values were worked out by hand from octofix.h. */
#include "expect.h"

static octofix_details details;
static octofix_block blocks[64];
static octofix_change changes[64];
static size_t count;

/* One occupied voxel, which is listed and bounded, is new since the mark, and stops casts. */
static void try_one_voxel(void) {
    octofix_map map = opened(&default_odds, &default_limits);
    const octofix_point p = at(50, 50, 50), q = at(250, 50, 50);
    const octofix_segment ways[] = {{p, q}, {q, p}};
    octofix_stop stops[2];
    octofix_box box;
    EXPECT(octofix_track(&map), 0);
    EXPECT(octofix_edit(&map, &p, OCTOFIX_SET, 850, false, &details), 0);
    EXPECT(octofix_leaves_of(&map, OCTOFIX_FREE_VOXELS, blocks, 64, &count), 0);
    EXPECT(count, 0);
    EXPECT(octofix_leaves_of(&map, OCTOFIX_OCCUPIED_VOXELS, blocks, 64, &count), 0);
    EXPECT(count, 1);
    EXPECT(blocks[0].depth, 16);
    EXPECT(blocks[0].x, 32768);
    EXPECT(blocks[0].value, 850);
    EXPECT(octofix_changes(&map, changes, 64, &count), 0);
    EXPECT(count, 1);
    EXPECT(changes[0].kind, OCTOFIX_NEW);
    EXPECT(octofix_bounds(&map, OCTOFIX_OCCUPIED_VOXELS, &box), 0);
    EXPECT(box.low.z, 32768);
    EXPECT(box.high.z, 32768);
    EXPECT(octofix_cast_all(&map, ways, 2, true, stops, 2), 0);
    EXPECT(stops[0].key.x, 32768);
    EXPECT(stops[1].key.x, 32768);
    octofix_close(&map);
}

static void expect_block(size_t i, uint32_t depth, uint32_t x, int32_t value) {
    EXPECT(blocks[i].depth, depth);
    EXPECT(blocks[i].x, x);
    EXPECT(blocks[i].value, value);
}

/* Eight voxels of one value are one leaf, though they have eight nodes before they are pruned, and
 * a free voxel beside them is another. */
static void expect_two_leaves(octofix_map *map) {
    const octofix_point p = at(50, 50, 50), low = at(-50, -50, -50), free = at(250, 50, 50);
    const octofix_point beside = at(250, 150, 50), far = at(550, 550, 550);
    EXPECT(octofix_leaves(map, blocks, 64, &count), 0);
    EXPECT(count, 2);
    expect_block(0, 15, 16384, 850);
    expect_block(1, 16, 32770, -400);
    EXPECT_DETAILS(octofix_leaves_in(map, &p, &p, blocks, 64, &count, &details), 0, 0, 0);
    EXPECT(count, 1);
    expect_block(0, 15, 16384, 850);
    EXPECT_DETAILS(octofix_leaves_in(map, &low, &free, blocks, 64, &count, &details), 0, 0, 0);
    EXPECT(count, 2);
    EXPECT_DETAILS(octofix_leaves_in(map, &beside, &far, blocks, 64, &count, &details), 0, 0, 0);
    EXPECT(count, 0);
    EXPECT(octofix_leaves_of(map, OCTOFIX_OCCUPIED_VOXELS, blocks, 64, &count), 0);
    EXPECT(count, 1);
    expect_block(0, 15, 16384, 850);
    EXPECT(octofix_leaves_of(map, OCTOFIX_FREE_VOXELS, blocks, 64, &count), 0);
    EXPECT(count, 1);
    expect_block(0, 16, 32770, -400);
    EXPECT_DETAILS(octofix_leaves_of_in(map, OCTOFIX_FREE_VOXELS, &low, &free, blocks, 64, &count,
                                        &details), 0, 0, 0);
    EXPECT(count, 1);
    expect_block(0, 16, 32770, -400);
}

/* Sets the eight voxels from 0 on, one by one and lazily, so that they aren't pruned. */
static void set_eight(octofix_map *map) {
    for (int i = 0; i < 8; i++) {
        const octofix_point p = at(50 + 100 * (i & 1), 50 + 50 * (i & 2), 50 + 25 * (i & 4));
        EXPECT(octofix_edit(map, &p, OCTOFIX_SET, 850, true, &details), 0);
    }
}

static void try_leaves(void) {
    octofix_map map = opened(&default_odds, &default_limits);
    const octofix_point free = at(250, 50, 50);
    octofix_box box;
    set_eight(&map);
    EXPECT(octofix_edit(&map, &free, OCTOFIX_SET, -400, true, &details), 0);
    expect_two_leaves(&map);
    EXPECT(octofix_prune(&map), 0);
    expect_two_leaves(&map);
    /* Once the inner values are right, only what is occupied is entered. */
    EXPECT(octofix_refresh(&map), 0);
    expect_two_leaves(&map);
    EXPECT(octofix_bounds(&map, OCTOFIX_KNOWN_VOXELS, &box), 0);
    EXPECT(box.low.x == 32768 && box.low.y == 32768 && box.low.z == 32768, true);
    EXPECT(box.high.x == 32770 && box.high.y == 32769 && box.high.z == 32769, true);
    EXPECT(octofix_bounds(&map, OCTOFIX_OCCUPIED_VOXELS, &box), 0);
    EXPECT(box.low.x == 32768 && box.low.y == 32768 && box.low.z == 32768, true);
    EXPECT(box.high.x == 32769 && box.high.y == 32769 && box.high.z == 32769, true);
    octofix_close(&map);
}

/* A map of 0.2 m, one of other log-odds, and one of few groups, into a map of one voxel. */
static void try_refused_merges(void) {
    octofix_map map = opened(&default_odds, &default_limits), other = {0};
    const octofix_point p = at(50, 50, 50), q = at(-50, 50, 50);
    const octofix_odds odds = {850, -400, -2000, 3500, 1};
    const octofix_limits few = {16, 100};
    int32_t value;
    EXPECT(octofix_edit(&map, &p, OCTOFIX_SET, 1, false, &details), 0);
    EXPECT(octofix_open(&other, 2 * RES, &odds, &default_limits, &details), 0);
    EXPECT_DETAILS(octofix_merge(&map, &other, 3, &details), 47, 0, 0);
    EXPECT_DETAILS(octofix_merge(&map, &other, UINT32_MAX, &details), 47, 0, 0);
    EXPECT_DETAILS(octofix_merge(&map, &other, OCTOFIX_FIRST, &details), 35, 2 * RES, RES);
    octofix_close(&other);
    other = opened(&odds, &default_limits);
    EXPECT_DETAILS(octofix_merge(&map, &other, OCTOFIX_FIRST, &details), 48, 0, 0);
    EXPECT(octofix_get(&map, &p, 16, &value), 0);
    EXPECT(value, 1);
    octofix_close(&other);
    other = opened(&default_odds, &few);
    EXPECT(octofix_edit(&other, &q, OCTOFIX_SET, 2, false, &details), 0);
    EXPECT_DETAILS(octofix_merge(&other, &map, OCTOFIX_LEAST, &details), 23, 16, 15);
    EXPECT(octofix_get(&other, &p, 16, &value), 42);
    EXPECT(octofix_get(&map, &q, 16, &value), 42);
    octofix_close(&other);
    octofix_close(&map);
}

/* A box that is too wide is told before too many groups. Its two corners share the groups of depths
 * 0 to 9, and each has six of its own. */
static void try_wide_and_full_merge(void) {
    const octofix_limits few = {16, 100};
    octofix_map map = opened(&default_odds, &few), other = opened(&default_odds, &default_limits);
    const octofix_point p = at(50, 50, 50), far = at(10050, 10050, 9950);
    EXPECT(octofix_edit(&other, &p, OCTOFIX_SET, 1, false, &details), 0);
    EXPECT(octofix_edit(&other, &far, OCTOFIX_SET, 1, false, &details), 0);
    EXPECT(octofix_track(&map), 0);
    EXPECT_DETAILS(octofix_merge(&map, &other, OCTOFIX_FIRST, &details), 27, 101 * 101 * 100, 0);
    EXPECT(octofix_untrack(&map), 0);
    EXPECT_DETAILS(octofix_merge(&map, &other, OCTOFIX_FIRST, &details), 23, 0, 22);
    octofix_close(&other);
    octofix_close(&map);
}

static void try_merges(void) {
    const octofix_point p = at(50, 50, 50), q = at(150, 50, 50), r = at(250, 50, 50);
    const octofix_point s = at(350, 50, 50), far = at(10050, 10050, 9950);
    const int32_t both[] = {850, 850, -400}; /* by first, greatest and least */
    const int32_t both_again[] = {-300, 7, -300};
    for (uint32_t rule = OCTOFIX_FIRST; rule <= OCTOFIX_LEAST; rule++) {
        octofix_map map = opened(&default_odds, &default_limits);
        octofix_map other = opened(&default_odds, &default_limits);
        int32_t value = 0;
        EXPECT(octofix_edit(&map, &p, OCTOFIX_SET, 850, false, &details), 0);
        EXPECT(octofix_edit(&map, &q, OCTOFIX_SET, 5, false, &details), 0);
        EXPECT(octofix_edit(&other, &p, OCTOFIX_SET, -400, false, &details), 0);
        EXPECT(octofix_edit(&other, &r, OCTOFIX_SET, 6, true, &details), 0);
        EXPECT(octofix_edit(&map, &s, OCTOFIX_SET, -300, false, &details), 0);
        EXPECT(octofix_edit(&other, &s, OCTOFIX_SET, 7, true, &details), 0);
        EXPECT(octofix_track(&map), 0);
        EXPECT_DETAILS(octofix_merge(&map, &other, rule, &details), 0, 0, 0);
        EXPECT(octofix_get(&map, &p, 16, &value), 0);
        EXPECT(value, both[rule]);
        EXPECT(octofix_get(&map, &s, 16, &value), 0);
        EXPECT(value, both_again[rule]);
        EXPECT(octofix_get(&map, &q, 16, &value), 0);
        EXPECT(value, 5);
        EXPECT(octofix_get(&map, &r, 0, &value), 0);
        EXPECT(value, rule == OCTOFIX_LEAST ? 6 : 850);
        EXPECT(octofix_get(&other, &p, 16, &value), 0);
        EXPECT(value, -400);
        EXPECT(octofix_get(&other, &q, 16, &value), 42);
        EXPECT(octofix_get(&other, &p, 0, &value), 22);
        EXPECT(octofix_changes(&map, changes, 64, &count), 0);
        EXPECT(count, rule == OCTOFIX_FIRST ? 1 : 2);
        const size_t added = rule == OCTOFIX_LEAST ? 1 : 0; /* r lies between p and s */
        EXPECT(changes[added].kind, OCTOFIX_NEW);
        EXPECT(octofix_edit(&other, &far, OCTOFIX_SET, 1, false, &details), 0);
        EXPECT_DETAILS(octofix_merge(&map, &other, rule, &details), 27, 101 * 101 * 100, 0);
        EXPECT(octofix_track(&other), 0); /* which knows more than a mark bears, unlike the map */
        EXPECT_DETAILS(octofix_merge(&other, &map, rule, &details), 0, 0, 0);
        EXPECT(octofix_untrack(&map), 0);
        EXPECT_DETAILS(octofix_merge(&map, &other, rule, &details), 0, 0, 0);
        octofix_close(&other);
        octofix_close(&map);
    }
}

/* Merges a map that knows two opposite corners of a box into an empty one with a mark. */
static void merge_box(octofix_point far, uint32_t code, uint64_t voxels) {
    octofix_map map = opened(&default_odds, &default_limits);
    octofix_map other = opened(&default_odds, &default_limits);
    const octofix_point p = at(0, 0, 0);
    int32_t value = 0;
    EXPECT(octofix_edit(&other, &p, OCTOFIX_SET, 850, false, &details), 0);
    EXPECT(octofix_edit(&other, &far, OCTOFIX_SET, -400, false, &details), 0);
    EXPECT(octofix_track(&map), 0);
    EXPECT_DETAILS(octofix_merge(&map, &other, OCTOFIX_FIRST, &details), code, voxels, 0);
    EXPECT(octofix_get(&map, &p, 16, &value), code == 0 ? 0 : 42);
    EXPECT(value, code == 0 ? 850 : 0);
    octofix_close(&other);
    octofix_close(&map);
}

/* A million voxels are the most that a mark bears; and from the origin to the map's last voxel. */
static void try_marked_boxes(void) {
    merge_box(at(9900, 9900, 9900), 0, 0);
    merge_box(at(10000, 9900, 9900), 27, 101 * 100 * 100);
    merge_box(at(3276799, 3276799, 3276799), 27, 32768ull * 32768 * 32768);
}

/* Groups that the values don't need are given back before a merge: eight voxels of one value need
 * 15, and two voxels in one block of depth 13, but not of depth 14, need 17 beside them. */
static void try_merge_of_unpruned(void) {
    const octofix_limits few = {32, 1000};
    octofix_map map = opened(&default_odds, &few), other = opened(&default_odds, &few);
    const octofix_point p = at(-100, -100, -100), q = at(-500, -100, -100);
    octofix_counts counts;
    set_eight(&map);
    EXPECT(octofix_edit(&other, &p, OCTOFIX_SET, 850, false, &details), 0);
    EXPECT(octofix_edit(&other, &q, OCTOFIX_SET, 850, false, &details), 0);
    EXPECT_DETAILS(octofix_merge(&map, &other, OCTOFIX_FIRST, &details), 0, 0, 0);
    EXPECT(octofix_counts_of(&map, &counts), 0);
    EXPECT(counts.groups, 32);
    EXPECT(counts.nodes, 35);
    octofix_close(&other);
    octofix_close(&map);
}

static void expect_stale(const octofix_map *map, bool wanted) {
    octofix_settings settings;
    EXPECT(octofix_settings_of(map, &settings), 0);
    EXPECT(settings.is_stale, wanted);
}

/* A stale map stays stale, and makes no other one so. */
static void try_stale_merges(void) {
    octofix_map map = opened(&default_odds, &default_limits);
    octofix_map other = opened(&default_odds, &default_limits);
    const octofix_point p = at(50, 50, 50), q = at(150, 50, 50);
    int32_t value = 0;
    EXPECT(octofix_edit(&other, &p, OCTOFIX_SET, -400, true, &details), 0);
    EXPECT(octofix_edit(&other, &q, OCTOFIX_SET, 850, true, &details), 0);
    EXPECT_DETAILS(octofix_merge(&map, &other, OCTOFIX_FIRST, &details), 0, 0, 0);
    expect_stale(&map, false);
    EXPECT(octofix_get(&map, &p, 0, &value), 0);
    EXPECT(value, 850);
    expect_stale(&other, true);
    EXPECT_DETAILS(octofix_merge(&other, &map, OCTOFIX_FIRST, &details), 0, 0, 0);
    expect_stale(&other, true);
    EXPECT(octofix_get(&other, &p, 0, &value), 22);
    octofix_close(&other);
    octofix_close(&map);
}

/* Two voxels side by side of another map, moved by 1, -2 and 3 voxels, beside one that stays. */
static void try_shifted_merge(void) {
    octofix_map map = opened(&default_odds, &default_limits);
    octofix_map other = opened(&default_odds, &default_limits);
    const octofix_point p = at(50, 50, 50), q = at(150, 50, 50), r = at(250, -150, 350);
    const octofix_point s = at(150, -150, 350);
    int32_t value = 0;
    EXPECT(octofix_edit(&map, &s, OCTOFIX_SET, -400, false, &details), 0);
    EXPECT(octofix_edit(&other, &p, OCTOFIX_SET, 850, true, &details), 0);
    EXPECT(octofix_edit(&other, &q, OCTOFIX_SET, 7, true, &details), 0);
    EXPECT_DETAILS(octofix_merge_shifted(&map, &other, OCTOFIX_GREATEST, &details, 1, -2, 3), 0, 0,
                   0);
    EXPECT(octofix_get(&map, &s, 16, &value), 0);
    EXPECT(value, 850);
    EXPECT(octofix_get(&map, &r, 0, &value), 0);
    EXPECT(value, 850);
    EXPECT(octofix_get(&map, &r, 16, &value), 0);
    EXPECT(value, 7);
    EXPECT(octofix_get(&map, &p, 16, &value), 42);
    EXPECT(octofix_get(&other, &p, 16, &value), 0);
    EXPECT(value, 850);
    expect_stale(&other, true);
    octofix_close(&other);
    octofix_close(&map);
}

/* The voxels 32768 and 32769 may move by -32768 to 32766. In one block of depth 15 they need 16
 * groups, and else 17. */
static void try_refused_shifts(void) {
    const octofix_limits few = {16, 100};
    octofix_map map = opened(&default_odds, &few), other = opened(&default_odds, &default_limits);
    octofix_map closed = {0};
    const octofix_point p = at(50, 50, 50), q = at(150, 50, 50);
    int32_t value = 0;
    EXPECT(octofix_edit(&other, &p, OCTOFIX_SET, 850, false, &details), 0);
    EXPECT(octofix_edit(&other, &q, OCTOFIX_SET, 850, false, &details), 0);
    EXPECT_DETAILS(octofix_merge_shifted(&map, &closed, 0, &details, 0, 0, 0), 40, 0, 0);
    EXPECT_DETAILS(octofix_merge_shifted(&map, &other, 3, &details, 0, 0, 0), 47, 0, 0);
    EXPECT_DETAILS(octofix_merge_shifted(&map, &other, 0, &details, -32769, 0, 0), 24, 1, 0);
    EXPECT_DETAILS(octofix_merge_shifted(&map, &other, 0, &details, 32767, 0, 0), 24, 2, 0);
    EXPECT_DETAILS(octofix_merge_shifted(&map, &other, 0, &details, 0, INT32_MIN, 0), 24, 1, 0);
    EXPECT_DETAILS(octofix_merge_shifted(&map, &other, 0, &details, 1, 0, 0), 23, 0, 17);
    EXPECT(octofix_get(&map, &q, 16, &value), 42);
    EXPECT_DETAILS(octofix_merge_shifted(&map, &other, 0, &details, -32768, 0, 0), 0, 0, 0);
    octofix_close(&other);
    octofix_close(&map);
}

int main(void) {
    try_one_voxel();
    try_leaves();
    try_refused_merges();
    try_wide_and_full_merge();
    try_merges();
    try_marked_boxes();
    try_merge_of_unpruned();
    try_stale_merges();
    try_shifted_merge();
    try_refused_shifts();
    printf("values: %d failed\n", failed);
    return failed != 0;
}
