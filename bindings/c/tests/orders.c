/* Where two refusals of one call hold, which one is told; numbers at the threshold itself; and the
 * bytes of a mark's notes. All by octofix.h, worked out by hand. */
#include "expect.h"

static octofix_details details;

/* Resolution, model and limits are judged in this order, and of a model the hit first. */
static void try_opening(void) {
    const octofix_odds bad = {0, 0, -2000, 3500, 0};
    const octofix_limits wide = {15, 0};
    octofix_map map = {0};
    EXPECT_DETAILS(octofix_open(&map, 0, &bad, &wide, &details), OCTOFIX_BAD_RESOLUTION, 0, 0);
    EXPECT_DETAILS(octofix_open(&map, RES, &bad, &wide, &details), OCTOFIX_BAD_MODEL, 0, 0);
    EXPECT_DETAILS(octofix_open(&map, RES, &default_odds, &wide, &details), OCTOFIX_BAD_ARGUMENT,
                   0, 0);
    EXPECT(map.is_open, false);
}

/* Of a scan's own log-odds the hit is judged before the miss. */
static void try_odds_of_a_scan(void) {
    octofix_map map = opened(&default_odds, &default_limits);
    const octofix_point p = at(0, 0, 0);
    const octofix_scan_options both = {-1, -1, 1, false};
    octofix_counted counted = {7, 7};
    EXPECT_DETAILS(octofix_scan(&map, &ahead, &p, 1, &both, &counted, &details),
                   OCTOFIX_BAD_MODEL, 0, 0);
    EXPECT_DETAILS(octofix_scan_in_map(&map, &p, &p, 1, &both, &counted, &details),
                   OCTOFIX_BAD_MODEL, 0, 0);
    EXPECT(counted.hits, 7);
    octofix_close(&map);
}

/* The origin is judged before the points, and these one after another. */
static void try_far_scans_in_map(void) {
    octofix_map map = opened(&default_odds, &default_limits);
    const octofix_point far = {0, 0, 10000000000000000}, here = at(0, 0, 0);
    const octofix_point points[] = {here, far, far};
    octofix_counted counted;
    EXPECT_DETAILS(octofix_scan_in_map(&map, &far, points, 3, &no_range, &counted, &details),
                   OCTOFIX_BAD_ARGUMENT, 0, 0);
    EXPECT_DETAILS(octofix_scan_in_map(&map, &here, points, 3, &no_range, &counted, &details),
                   OCTOFIX_BAD_ARGUMENT, 1, 0);
    octofix_close(&map);
}

/* The origin of a ray is its point 1, which is judged first, behind the resolution. */
static void try_ray(void) {
    const octofix_point out = at(0, 3276800, 0), here = at(0, 0, 0);
    octofix_key key = {7, 7, 7};
    size_t count = 7;
    EXPECT_DETAILS(octofix_ray(0, &out, &out, &key, 0, &count, &details), OCTOFIX_BAD_RESOLUTION,
                   0, 0);
    EXPECT_DETAILS(octofix_ray(RES, &out, &out, &key, 0, &count, &details), OCTOFIX_OUTSIDE, 1, 0);
    EXPECT_DETAILS(octofix_ray(RES, &here, &out, &key, 0, &count, &details), OCTOFIX_OUTSIDE, 2,
                   0);
    EXPECT(count, 7);
}

/* From the threshold on a voxel is occupied, and one below it is free. */
static void try_threshold(void) {
    const octofix_odds odds = {850, -400, -2000, 3500, 5};
    octofix_map map = opened(&odds, &default_limits);
    const octofix_point p = at(50, 50, 50), q = at(150, 50, 50);
    int32_t value = 0;
    EXPECT(octofix_edit(&map, &p, OCTOFIX_SET, 5, false, &details), OCTOFIX_DONE);
    EXPECT(octofix_edit(&map, &q, OCTOFIX_SET, 4, false, &details), OCTOFIX_DONE);
    EXPECT(octofix_max_likelihood(&map), OCTOFIX_DONE);
    EXPECT(octofix_get(&map, &p, 16, &value), OCTOFIX_DONE);
    EXPECT(value, 3500);
    EXPECT(octofix_get(&map, &q, 16, &value), OCTOFIX_DONE);
    EXPECT(value, -2000);
    octofix_close(&map);
}

/* A note takes 8 bytes. There is room for the first one, and then for as many again as there are
 * voxels noted: for 1, 2 and 4 behind three edits of three voxels in a map that takes no group
 * more for them. */
static void try_memory_of_notes(void) {
    octofix_map map = opened(&default_odds, &default_limits);
    const octofix_point points[] = {at(50, 50, 50), at(150, 50, 50), at(50, 150, 50)};
    const uint64_t rooms[] = {1, 2, 4};
    uint64_t before = 0, bytes = 0;
    for (size_t i = 0; i < 3; i++)
        EXPECT(octofix_edit(&map, &points[i], OCTOFIX_SET, 1, false, &details), OCTOFIX_DONE);
    EXPECT(octofix_memory(&map, &before), OCTOFIX_DONE);
    EXPECT(octofix_track(&map), OCTOFIX_DONE);
    EXPECT(octofix_memory(&map, &bytes), OCTOFIX_DONE);
    EXPECT(bytes, before);
    for (size_t i = 0; i < 3; i++) {
        EXPECT(octofix_edit(&map, &points[i], OCTOFIX_SET, -1, false, &details), OCTOFIX_DONE);
        EXPECT(octofix_memory(&map, &bytes), OCTOFIX_DONE);
        EXPECT(bytes, before + 8 * rooms[i]);
    }
    EXPECT(octofix_untrack(&map), OCTOFIX_DONE);
    EXPECT(octofix_memory(&map, &bytes), OCTOFIX_DONE);
    EXPECT(bytes, before);
    octofix_close(&map);
}

int main(void) {
    try_opening();
    try_odds_of_a_scan();
    try_far_scans_in_map();
    try_ray();
    try_threshold();
    try_memory_of_notes();
    printf("orders: %d failed\n", failed);
    return failed != 0;
}
