/* Two scans of a wall and a box, and what the map then says: see the README's first session. */
#include "octofix.h"

#include <inttypes.h>
#include <stdio.h>
#include <stdlib.h>

enum { MM = 1000000 }; /* nanometres in a millimetre */

static const octofix_scan_options no_range = {-1, 0, 0, false};

static octofix_point at(int64_t x, int64_t y, int64_t z) {
    const octofix_point point = {x * MM, y * MM, z * MM};
    return point;
}

static void say_scan(octofix_map *map, const octofix_pose *pose, const octofix_point *points,
                     size_t count, const octofix_scan_options *options) {
    octofix_counted counted = {0, 0};
    octofix_details details;
    const uint32_t code = octofix_scan(map, pose, points, count, options, &counted, &details);
    if (code == OCTOFIX_DONE)
        printf("hits %" PRIu64 " frees %" PRIu64 "\n", counted.hits, counted.frees);
    else
        printf("refused %" PRIu32 " %" PRIu64 "\n", code, details.first);
}

static void say_get(const octofix_map *map, octofix_point point, uint32_t depth) {
    int32_t value = 0;
    const uint32_t code = octofix_get(map, &point, depth, &value);
    if (code == OCTOFIX_DONE)
        printf("known %" PRId32 "\n", value);
    else
        printf(code == OCTOFIX_UNKNOWN ? "unknown\n" : "refused %" PRIu32 "\n", code);
}

static void say_cast(const octofix_map *map, octofix_point origin, octofix_point end) {
    octofix_key key = {0, 0, 0};
    octofix_details details;
    const uint32_t code = octofix_cast(map, &origin, &end, false, &key, &details);
    if (code == OCTOFIX_CLEAR)
        printf("clear\n");
    else
        printf("stopped %" PRIu32 " at %u %u %u\n", code, key.x, key.y, key.z);
}

/* The count first, then a buffer for as many. */
static void say_leaves(const octofix_map *map) {
    octofix_block none;
    size_t count = 0;
    octofix_leaves(map, &none, 0, &count);
    octofix_block *leaves = malloc((count + 1) * sizeof *leaves);
    if (leaves && octofix_leaves(map, leaves, count, &count) == OCTOFIX_DONE) {
        size_t occupied = 0;
        for (size_t i = 0; i < count; i++) occupied += leaves[i].value >= 0;
        printf("%zu leaves, %zu of them occupied\n", count, occupied);
    }
    free(leaves);
}

/* Another map takes the file of the first one. */
static void say_copy(const octofix_map *map) {
    octofix_settings settings;
    octofix_details details;
    octofix_map copy = {0};
    uint8_t none;
    size_t length = 0;
    octofix_settings_of(map, &settings);
    octofix_save(map, &none, 0, &length);
    uint8_t *file = malloc(length + 1);
    if (file && octofix_save(map, file, length, &length) == OCTOFIX_DONE &&
        octofix_open(&copy, settings.res, &settings.odds, &settings.limits, &details) ==
            OCTOFIX_DONE) {
        printf("load %" PRIu32 "\n", octofix_load(&copy, file, length, &details));
        say_get(&copy, at(2050, 50, 50), 16);
        say_get(&copy, at(1050, 50, 50), 16);
    }
    octofix_close(&copy);
    free(file);
}

int main(void) {
    octofix_map map = {0};
    const octofix_odds odds = OCTOFIX_DEFAULT_ODDS;
    const octofix_limits limits = OCTOFIX_DEFAULT_LIMITS;
    octofix_details details;
    if (octofix_open(&map, 100 * MM, &odds, &limits, &details) != OCTOFIX_DONE) return 1;

    /* Ahead a wall at two metres, to the left a box at one metre. */
    const octofix_pose ahead = {at(50, 50, 50), 1, 0, 0, 0};
    const octofix_point wall_and_box[] = {at(2000, 0, 0), at(0, 1000, 0)};
    say_scan(&map, &ahead, wall_and_box, 2, &no_range);
    /* The same sensor after a quarter turn to the left, with a range of 1.5 m: the box is gone. */
    const octofix_pose left = {at(50, 50, 50), 1, 0, 0, 1};
    const octofix_scan_options near = {1500 * MM, 0, 0, false};
    say_scan(&map, &left, wall_and_box, 1, &near);

    say_get(&map, at(2050, 50, 50), 16); /* the wall */
    say_get(&map, at(1050, 50, 50), 16); /* the way to it */
    say_get(&map, at(2150, 50, 50), 16); /* behind it */
    say_get(&map, at(50, 1050, 50), 16); /* the place of the box */
    say_get(&map, at(0, 0, 0), 0);       /* the whole map */
    say_get(&map, at(0, 0, 0), 17);
    say_cast(&map, at(50, 50, 50), at(2950, 50, 50));
    say_cast(&map, at(50, 50, 50), at(950, 50, 50));
    say_cast(&map, at(50, 50, 50), at(50, 50, 950));
    say_leaves(&map);
    say_copy(&map);

    octofix_close(&map);
    printf("closed twice: %" PRIu32 "\n", octofix_close(&map));
    return 0;
}
