/* Copies: equal in all that is asked of them, with as much memory, and maps of their own. Expected
 * values were worked out by hand from octofix.h. */
#include "expect.h"

enum { ROOM = 1 << 12 };

static octofix_details details;

/* A map with some of all: a leaf and voxels, entries that were given back, stale inner values, a
 * mark with notes, an update box, and log-odds and limits of its own. */
static octofix_map filled(void) {
    const octofix_odds odds = {900, -300, -1500, 2500, 10};
    const octofix_limits limits = {5000, 6000};
    const octofix_point low = at(-1600, -1600, -1600), high = at(1550, 1550, 1550);
    const octofix_point near = at(50, 50, 50), far = at(90050, 50, 50);
    octofix_map map = opened(&odds, &limits);
    EXPECT(octofix_edit_box(&map, &low, &high, OCTOFIX_SET, 700, &details), 0);
    EXPECT(octofix_edit(&map, &far, OCTOFIX_SET, 700, false, &details), 0);
    EXPECT(octofix_edit(&map, &far, OCTOFIX_FORGET, 0, false, &details), 0);
    EXPECT(octofix_limit(&map, &low, &near, &details), 0);
    EXPECT(octofix_track(&map), 0);
    EXPECT(octofix_edit(&map, &near, OCTOFIX_SET, -700, true, &details), 0);
    return map;
}

static int32_t value_at(const octofix_map *map, const octofix_point *point) {
    int32_t value = 0;
    EXPECT(octofix_get(map, point, 16, &value), 0);
    return value;
}

static void expect_same_settings(const octofix_map *map, const octofix_map *copy) {
    octofix_settings one, two;
    uint64_t held, held_by_copy;
    octofix_box box, copied_box;
    EXPECT(octofix_settings_of(map, &one), 0);
    EXPECT(octofix_settings_of(copy, &two), 0);
    EXPECT(two.res, one.res);
    EXPECT(memcmp(&two.odds, &one.odds, sizeof one.odds), 0);
    EXPECT(two.limits.max_groups, one.limits.max_groups);
    EXPECT(two.limits.max_cells, one.limits.max_cells);
    EXPECT(two.is_stale, one.is_stale);
    EXPECT(two.is_tracked, one.is_tracked);
    EXPECT(octofix_window(map, &box), 0);
    EXPECT(octofix_window(copy, &copied_box), 0);
    EXPECT(memcmp(&copied_box, &box, sizeof box), 0);
    EXPECT(octofix_memory(map, &held), 0);
    EXPECT(octofix_memory(copy, &held_by_copy), 0);
    EXPECT(held_by_copy, held);
}

static void expect_same_snapshots(octofix_map *map, octofix_map *copy) {
    static uint8_t one[ROOM], two[ROOM];
    size_t length, length_of_copy;
    EXPECT(octofix_refresh(map), 0);
    EXPECT(octofix_refresh(copy), 0);
    EXPECT(octofix_snapshot(map, one, ROOM, &length), 0);
    EXPECT(octofix_snapshot(copy, two, ROOM, &length_of_copy), 0);
    EXPECT(length_of_copy, length);
    EXPECT(memcmp(two, one, length), 0);
}

/* The copy tells of the change since the mark of the map that it was made of. */
static void try_copy(void) {
    octofix_map map = filled(), copy = {0};
    const octofix_point near = at(50, 50, 50);
    octofix_change change = {{0, 0, 0}, 0};
    octofix_settings settings;
    size_t count = 0;
    EXPECT(octofix_copy(&map, &copy), 0);
    expect_same_settings(&map, &copy);
    EXPECT(octofix_settings_of(&copy, &settings), 0);
    EXPECT(settings.is_stale && settings.is_tracked, true);
    EXPECT(value_at(&copy, &near), -700);
    EXPECT(octofix_changes(&copy, &change, 1, &count), 0);
    EXPECT(count, 1);
    EXPECT(change.key.x, 32768);
    EXPECT(change.kind, OCTOFIX_FREED);
    expect_same_snapshots(&map, &copy);
    octofix_close(&copy);
    octofix_close(&map);
}

/* What is done to one of the two, the end of the map among that, the other doesn't show. */
static void try_apart(void) {
    octofix_map map = filled(), copy = {0};
    const octofix_point one = at(150, 50, 50), two = at(250, 50, 50), gone = at(90050, 50, 50);
    EXPECT(octofix_copy(&map, &copy), 0);
    EXPECT(octofix_edit(&map, &one, OCTOFIX_SET, 1, false, &details), 0);
    EXPECT(octofix_edit(&copy, &two, OCTOFIX_SET, 2, false, &details), 0);
    EXPECT(octofix_edit(&copy, &gone, OCTOFIX_SET, 3, false, &details), 0);
    EXPECT(value_at(&copy, &one), 700);
    EXPECT(value_at(&map, &two), 700);
    octofix_close(&map);
    EXPECT(value_at(&copy, &two), 2);
    EXPECT(value_at(&copy, &gone), 3);
    octofix_close(&copy);
}

/* A closed map is told before an open copy; an open one stays as it is. */
static void try_refusals(void) {
    octofix_map closed = {0}, map = opened(&default_odds, &default_limits), copy = filled();
    const octofix_point near = at(50, 50, 50);
    uint64_t held;
    EXPECT(octofix_copy(&closed, &copy), OCTOFIX_CLOSED);
    EXPECT(octofix_copy(&map, &copy), OCTOFIX_OPEN);
    EXPECT(value_at(&copy, &near), -700);
    octofix_close(&copy);
    EXPECT(octofix_copy(&map, &copy), OCTOFIX_DONE); /* of a map that holds nothing */
    EXPECT(octofix_memory(&copy, &held), 0);
    EXPECT(held, 0);
    EXPECT(octofix_edit(&copy, &near, OCTOFIX_SET, 1, false, &details), 0);
    octofix_close(&copy);
    octofix_close(&map);
}

int main(void) {
    try_copy();
    try_apart();
    try_refusals();
    printf("copies: %d failed\n", failed);
    return failed != 0;
}
