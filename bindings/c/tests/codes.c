/* Calls each function of octofix.h in each way that it answers, with the smallest maps that do:
 * every code, a closed handle, a second open and close, counts of 0, and the most extreme numbers
 * in every field. Codes and details are those of octofix.h, worked out by hand. */
#include "expect.h"

static octofix_details details;
static octofix_block blocks[64];
static octofix_key keys[64];
static octofix_change changes[64];
static int8_t cells[64];
static uint8_t bytes[4096];
static size_t count;

static const int64_t extremes[] = {INT64_MIN, INT64_MIN + 1, -10000000000000000, -1, 0, 1,
                                   10000000000000000, INT64_MAX - 1, INT64_MAX};
enum { EXTREMES = sizeof extremes / sizeof *extremes };

/* The version, and the names of all codes, which those from 3 to 39 have from docs/FORMATS.md. */
static void try_texts(void) {
    static const uint32_t nameless[] = {OCTOFIX_DONE, 1, 2, 36, 49, UINT32_MAX};
    static const struct { uint32_t code; const char *name; } named[] = {
        {OCTOFIX_BAD_RESOLUTION, "BadResolution"}, {OCTOFIX_BAD_MODEL, "BadModel"},
        {OCTOFIX_ZERO_QUATERNION, "ZeroQuaternion"}, {OCTOFIX_ORIGIN_OUTSIDE, "OriginOutside"},
        {OCTOFIX_POINT_OUTSIDE, "PointOutside"}, {OCTOFIX_TOO_MANY_CELLS, "TooManyCells"},
        {OCTOFIX_TOO_MANY_BLOCKS, "TooManyBlocks"}, {OCTOFIX_NOT_OCTOMAP, "NotOctomap"},
        {OCTOFIX_FLOAT_TREE, "FloatTree"}, {OCTOFIX_WRONG_ID, "WrongId"},
        {OCTOFIX_MISSING_FIELD, "MissingField"}, {OCTOFIX_BAD_FIELD, "BadField"},
        {OCTOFIX_HEADER_TOO_LONG, "HeaderTooLong"}, {OCTOFIX_TOO_DEEP, "TooDeep"},
        {OCTOFIX_TRUNCATED, "Truncated"}, {OCTOFIX_TRAILING_BYTES, "TrailingBytes"},
        {OCTOFIX_SIZE_MISMATCH, "SizeMismatch"}, {OCTOFIX_BAD_MAGIC, "BadMagic"},
        {OCTOFIX_BAD_SNAPSHOT, "BadSnapshot"}, {OCTOFIX_STALE, "Stale"}, {OCTOFIX_FULL, "Full"},
        {OCTOFIX_OUTSIDE, "Outside"}, {OCTOFIX_BAD_DEPTH, "BadDepth"}, {OCTOFIX_BAD_BOX, "BadBox"},
        {OCTOFIX_WIDE_WHILE_TRACKED, "WideWhileTracked"}, {OCTOFIX_NOT_TRACKED, "NotTracked"},
        {29, "Syntax"}, {30, "LongLine"}, {31, "OpenScan"}, {32, "TooManyPoints"}, {33, "NoFile"},
        {34, "FileTooLarge"}, {OCTOFIX_OTHER_RESOLUTION, "OtherResolution"},
        {37, "TooManyFrontiers"}, {OCTOFIX_WIDE_GRID, "WideGrid"}, {39, "TooManyBoxes"},
        {OCTOFIX_CLOSED, "Closed"}, {OCTOFIX_OPEN, "Open"}, {OCTOFIX_UNKNOWN, "Unknown"},
        {OCTOFIX_CLEAR, "Clear"}, {OCTOFIX_NONE, "None"}, {OCTOFIX_MEMORY, "Memory"},
        {OCTOFIX_SMALL_BUFFER, "SmallBuffer"}, {OCTOFIX_BAD_ARGUMENT, "BadArgument"},
        {OCTOFIX_OTHER_ODDS, "OtherOdds"}};
    octofix_text text = OCTOFIX_NO_TEXT;
    const char *mine = text.at;
    for (size_t i = 0; i < sizeof nameless / sizeof *nameless; i++) {
        EXPECT(octofix_code_name(nameless[i]) == NULL, true);
        EXPECT(octofix_code_text(nameless[i], &text), OCTOFIX_NONE);
        EXPECT(text.at == mine && text.length == 1, true);
    }
    for (size_t i = 0; i < sizeof named / sizeof *named; i++) {
        const char *name = octofix_code_name(named[i].code);
        EXPECT(name && strcmp(name, named[i].name) == 0, true);
        EXPECT(octofix_code_text(named[i].code, &text), OCTOFIX_DONE);
        EXPECT(text.at == name && text.length == strlen(name) + 1, true);
    }
    EXPECT(octofix_version_text(&text), OCTOFIX_DONE);
    EXPECT(text.at == octofix_version() && text.length == strlen(text.at) + 1, true);
    int parts[3];
    EXPECT(sscanf(text.at, "%d.%d.%d", &parts[0], &parts[1], &parts[2]), 3);
}

static void try_opening(void) {
    octofix_map map = {0};
    const octofix_limits *limits = &default_limits;
    EXPECT_DETAILS(octofix_open(&map, 99999, &default_odds, limits, &details), 3, 0, 0);
    EXPECT_DETAILS(octofix_open(&map, 100000000001, &default_odds, limits, &details), 3, 0, 0);
    EXPECT_DETAILS(octofix_open(&map, INT64_MIN, &default_odds, limits, &details), 3, 0, 0);
    EXPECT_DETAILS(octofix_open(&map, INT64_MAX, &default_odds, limits, &details), 3, 0, 0);
    const octofix_odds bad[] = {{0, -400, -2000, 3500, 0},       {1000001, -400, -2000, 3500, 0},
                                {850, 0, -2000, 3500, 0},        {850, -1000001, -2000, 3500, 0},
                                {850, -400, 1, 3500, 2},         {850, -400, -1000001, 3500, 0},
                                {850, -400, -2000, -1, -2},      {850, -400, -2000, 1000001, 0},
                                {850, -400, -2000, 3500, -2000}, {850, -400, -2000, 3500, 3501},
                                {INT32_MIN, 0, 0, 0, 0},         {850, INT32_MAX, 0, 0, 0},
                                {850, -400, INT32_MIN, 0, 0},    {850, -400, 0, INT32_MAX, 0},
                                {850, -400, 0, 0, INT32_MIN}};
    const uint64_t field[] = {0, 0, 1, 1, 2, 2, 3, 3, 4, 4, 0, 1, 2, 3, 4};
    for (size_t i = 0; i < sizeof bad / sizeof *bad; i++)
        EXPECT_DETAILS(octofix_open(&map, RES, &bad[i], limits, &details), 4, field[i], 0);
    const octofix_limits wide[] = {{15, 1}, {(1 << 26) + 1, 1}, {16, 0}, {16, (1 << 27) + 1},
                                   {UINT64_MAX, 1}, {16, UINT64_MAX}, {0, 0}};
    for (size_t i = 0; i < sizeof wide / sizeof *wide; i++)
        EXPECT(octofix_open(&map, RES, &default_odds, &wide[i], &details), 47);
    EXPECT(map.is_open, false);
    EXPECT_DETAILS(octofix_open(&map, 100000, &default_odds, limits, &details), 0, 0, 0);
    EXPECT_DETAILS(octofix_open(&map, RES, &default_odds, limits, &details), 41, 0, 0);
    EXPECT_DETAILS(octofix_open(&map, 0, &bad[0], &wide[0], &details), 41, 0, 0);
    EXPECT(octofix_close(&map), 0);
    EXPECT(octofix_close(&map), 40);
    EXPECT(octofix_open(&map, 100000000000, &default_odds, limits, &details), 0);
    EXPECT(octofix_close(&map), 0);
}

static void try_closed_handle(void) {
    octofix_map map = {0};
    octofix_settings settings;
    octofix_counts counts;
    octofix_least_tree least;
    octofix_counted counted;
    octofix_box box;
    octofix_answer answer;
    octofix_stop stop;
    octofix_edit_t edit = {{0, 0, 0}, OCTOFIX_ADD, 1};
    const octofix_segment way = {{0, 0, 0}, {0, 0, 0}};
    const octofix_point p = {INT64_MAX, 0, 0};
    uint64_t number;
    int32_t value;
    count = 4711;
    EXPECT(octofix_close(&map), 40);
    EXPECT(octofix_settings_of(&map, &settings), 40);
    EXPECT(octofix_memory(&map, &number), 40);
    EXPECT_DETAILS(octofix_edit(&map, &p, 9, INT32_MIN, true, &details), 40, 0, 0);
    EXPECT_DETAILS(octofix_edit_box(&map, &p, &p, 9, INT32_MIN, &details), 40, 0, 0);
    EXPECT_DETAILS(octofix_keep_box(&map, &p, &p, &details), 40, 0, 0);
    EXPECT_DETAILS(octofix_edit_all(&map, &edit, 1, false, &count, &details), 40, 0, 0);
    EXPECT(count, 0);
    count = 4711; /* which no call after this writes */
    EXPECT_DETAILS(octofix_scan(&map, &ahead, &p, 1, &no_range, &counted, &details), 40, 0, 0);
    EXPECT_DETAILS(octofix_scan_in_map(&map, &p, &p, 1, &no_range, &counted, &details), 40, 0, 0);
    EXPECT_DETAILS(octofix_limit(&map, &p, &p, &details), 40, 0, 0);
    EXPECT(octofix_no_limit(&map), 40);
    EXPECT(octofix_window(&map, &box), 40);
    EXPECT(octofix_refresh(&map), 40);
    EXPECT(octofix_prune(&map), 40);
    EXPECT(octofix_clear(&map), 40);
    EXPECT(octofix_max_likelihood(&map), 40);
    octofix_map other = opened(&default_odds, &default_limits);
    EXPECT_DETAILS(octofix_merge(&map, &other, 3, &details), 40, 0, 0);
    EXPECT_DETAILS(octofix_merge(&other, &map, 3, &details), 40, 0, 0);
    EXPECT(octofix_copy(&map, &other), 40);
    octofix_close(&other);
    EXPECT(octofix_copy(&map, &other), 40);
    EXPECT(other.is_open, false);
    EXPECT(octofix_counts_of(&map, &counts), 40);
    EXPECT(octofix_least_tree_of(&map, &least), 40);
    EXPECT(octofix_get(&map, &p, 99, &value), 40);
    EXPECT(octofix_get_all(&map, &p, 1, 99, &answer, 0), 40);
    EXPECT_DETAILS(octofix_cast(&map, &p, &p, true, keys, &details), 40, 0, 0);
    EXPECT(octofix_cast_all(&map, &way, 1, true, &stop, 0), 40);
    EXPECT_DETAILS(octofix_list(&map, &p, &p, 99, blocks, 0, &count, &details), 40, 0, 0);
    EXPECT(octofix_leaves(&map, blocks, 0, &count), 40);
    EXPECT_DETAILS(octofix_leaves_in(&map, &p, &p, blocks, 0, &count, &details), 40, 0, 0);
    EXPECT(octofix_leaves_of(&map, 99, blocks, 0, &count), 40);
    EXPECT_DETAILS(octofix_leaves_of_in(&map, 99, &p, &p, blocks, 0, &count, &details), 40, 0, 0);
    EXPECT(octofix_bounds(&map, 99, &box), 40);
    EXPECT_DETAILS(octofix_grid(&map, &p, &p, cells, 0, &count, &details), 40, 0, 0);
    EXPECT(octofix_track(&map), 40);
    EXPECT(octofix_untrack(&map), 40);
    EXPECT(octofix_changes(&map, changes, 0, &count), 40);
    EXPECT(octofix_save(&map, bytes, 0, &count), 40);
    EXPECT_DETAILS(octofix_load(&map, bytes, 0, &details), 40, 0, 0);
    EXPECT(octofix_snapshot(&map, bytes, 0, &count), 40);
    EXPECT_DETAILS(octofix_restore(&map, bytes, 0, &details), 40, 0, 0);
    EXPECT(count, 4711);
}

static void try_edits(void) {
    octofix_map map = opened(&default_odds, &default_limits);
    const octofix_point p = at(50, 50, 50), far = at(3276800, 0, 0), q = at(-50, 50, 50);
    int32_t value = 7;
    EXPECT_DETAILS(octofix_edit(&map, &p, OCTOFIX_ADD, 850, false, &details), 0, 0, 0);
    EXPECT(octofix_get(&map, &p, 16, &value), 0);
    EXPECT(value, 850);
    EXPECT_DETAILS(octofix_edit(&map, &p, OCTOFIX_SET, 1000000, false, &details), 0, 0, 0);
    EXPECT(octofix_get(&map, &p, 0, &value), 0);
    EXPECT(value, 3500);
    EXPECT_DETAILS(octofix_edit(&map, &p, OCTOFIX_SET, 1, true, &details), 0, 0, 0);
    EXPECT(octofix_get(&map, &p, 15, &value), 22);
    EXPECT_DETAILS(octofix_edit(&map, &p, OCTOFIX_LIKELY, 0, false, &details), 0, 0, 0);
    EXPECT(octofix_get(&map, &p, 16, &value), 0);
    EXPECT(value, 3500);
    EXPECT_DETAILS(octofix_edit(&map, &p, OCTOFIX_FORGET, 0, false, &details), 0, 0, 0);
    EXPECT(octofix_get(&map, &p, 16, &value), 42);
    EXPECT(value, 3500); /* it wasn't written */

    EXPECT(octofix_edit(&map, &p, OCTOFIX_ADD, 1000001, false, &details), 47);
    EXPECT(octofix_edit(&map, &p, OCTOFIX_ADD, -1000001, false, &details), 47);
    EXPECT(octofix_edit(&map, &p, OCTOFIX_SET, INT32_MIN, false, &details), 47);
    EXPECT(octofix_edit(&map, &p, OCTOFIX_SET, INT32_MAX, false, &details), 47);
    EXPECT(octofix_edit(&map, &p, 4, 0, false, &details), 47);
    EXPECT(octofix_edit(&map, &p, UINT32_MAX, 0, false, &details), 47);
    EXPECT_DETAILS(octofix_edit(&map, &far, OCTOFIX_ADD, 1, false, &details), 24, 1, 0);
    EXPECT_DETAILS(octofix_edit(&map, &far, 4, 1, false, &details), 47, 0, 0);

    EXPECT_DETAILS(octofix_edit_box(&map, &q, &p, OCTOFIX_ADD, 1, &details), 0, 0, 0);
    EXPECT_DETAILS(octofix_edit_box(&map, &p, &q, OCTOFIX_ADD, 1, &details), 26, 0, 0);
    EXPECT_DETAILS(octofix_edit_box(&map, &far, &far, OCTOFIX_ADD, 1, &details), 24, 1, 0);
    EXPECT_DETAILS(octofix_edit_box(&map, &q, &far, OCTOFIX_ADD, 1, &details), 24, 2, 0);
    EXPECT_DETAILS(octofix_edit_box(&map, &p, &far, 4, 0, &details), 47, 0, 0);
    EXPECT_DETAILS(octofix_edit_box(&map, &far, &q, OCTOFIX_ADD, 1, &details), 24, 1, 0);
    EXPECT(octofix_edit_box(&map, &q, &p, OCTOFIX_SET, INT32_MIN, &details), 47);
    /* a number beside an event that has none means nothing */
    EXPECT_DETAILS(octofix_edit(&map, &p, OCTOFIX_LIKELY, INT32_MIN, false, &details), 0, 0, 0);
    EXPECT_DETAILS(octofix_edit(&map, &p, OCTOFIX_FORGET, INT32_MAX, false, &details), 0, 0, 0);
    EXPECT_DETAILS(octofix_edit_box(&map, &q, &p, OCTOFIX_LIKELY, INT32_MAX, &details), 0, 0, 0);
    EXPECT_DETAILS(octofix_edit_box(&map, &q, &p, OCTOFIX_FORGET, INT32_MIN, &details), 0, 0, 0);
    EXPECT(octofix_get(&map, &q, 16, &value), 42);

    const octofix_point_edit edits[] = {
        {p, OCTOFIX_SET, 5}, {q, OCTOFIX_SET, 6}, {far, OCTOFIX_SET, 7}};
    EXPECT_DETAILS(octofix_edit_all(&map, edits, 3, false, &count, &details), 24, 1, 0);
    EXPECT(count, 2);
    EXPECT(octofix_get(&map, &q, 16, &value), 0);
    EXPECT(value, 6);
    EXPECT_DETAILS(octofix_edit_all(&map, edits, 0, true, &count, &details), 0, 0, 0);
    EXPECT(count, 0);
    const octofix_point_edit bad[] = {{p, OCTOFIX_SET, 8}, {p, 4, 0}, {p, OCTOFIX_SET, 9}};
    EXPECT_DETAILS(octofix_edit_all(&map, bad, 3, true, &count, &details), 47, 1, 0);
    EXPECT(count, 1);
    EXPECT(octofix_get(&map, &p, 16, &value), 0);
    EXPECT(value, 8); /* none was done behind the first that is refused */
    EXPECT(octofix_refresh(&map), 0);
    const octofix_point_edit unnumbered[] = {{p, OCTOFIX_FORGET, INT32_MIN},
                                         {q, OCTOFIX_LIKELY, INT32_MAX}};
    EXPECT_DETAILS(octofix_edit_all(&map, unnumbered, 2, false, &count, &details), 0, 0, 0);
    EXPECT(count, 2);
    EXPECT(octofix_get(&map, &p, 16, &value), 42);
    EXPECT(octofix_get(&map, &q, 16, &value), 0);
    EXPECT(value, 3500);
    octofix_close(&map);
}

static void try_full(void) {
    const octofix_limits few = {16, 100};
    octofix_map map = opened(&default_odds, &few);
    const octofix_point p = at(0, 0, 0), q = at(-100, 0, 0), far = at(2000, 0, 0);
    octofix_counted counted;
    EXPECT(octofix_edit(&map, &p, OCTOFIX_ADD, 1, false, &details), 0);
    EXPECT_DETAILS(octofix_edit(&map, &q, OCTOFIX_ADD, 1, false, &details), 23, 16, 16);
    /* A box of two voxels beside each other in the lower and the upper half of x: 1 + 2 * 15. */
    EXPECT_DETAILS(octofix_edit_box(&map, &q, &p, OCTOFIX_ADD, 1, &details), 23, 16, 31);
    EXPECT(octofix_scan(&map, &ahead, &far, 1, &no_range, &counted, &details), 23);
    EXPECT(details.first, 16);
    octofix_close(&map);
}

static void try_keeps(void) {
    const octofix_limits few = {16, 100};
    octofix_map map = opened(&default_odds, &few);
    const octofix_point p = at(0, 0, 0), q = at(-100, 0, 0), r = at(10000, 10000, 10000);
    const octofix_point low = at(-3276800, -3276800, -3276800), far = at(3276800, 0, 0);
    const octofix_point high = at(3276700, 3276700, 3276700);
    octofix_counts counts;
    int32_t value;
    EXPECT_DETAILS(octofix_keep_box(&map, &p, &q, &details), 26, 0, 0);
    EXPECT_DETAILS(octofix_keep_box(&map, &far, &far, &details), 24, 1, 0);
    EXPECT_DETAILS(octofix_keep_box(&map, &p, &far, &details), 24, 2, 0);
    EXPECT_DETAILS(octofix_keep_box(&map, &q, &p, &details), 0, 0, 0); /* nothing is known */
    EXPECT(octofix_edit_box(&map, &low, &high, OCTOFIX_SET, 700, &details), 0);
    EXPECT_DETAILS(octofix_keep_box(&map, &low, &high, &details), 0, 0, 0);
    /* One leaf: the two voxels are in the lower and the upper half of x, 1 + 2 * 15. */
    EXPECT_DETAILS(octofix_keep_box(&map, &q, &p, &details), 23, 0, 31);
    EXPECT(octofix_get(&map, &r, 16, &value), 0);
    EXPECT_DETAILS(octofix_keep_box(&map, &p, &p, &details), 0, 0, 0);
    EXPECT(octofix_counts_of(&map, &counts), 0);
    EXPECT(counts.groups, 16);
    EXPECT(octofix_get(&map, &p, 16, &value), 0);
    EXPECT(value, 700);
    EXPECT(octofix_get(&map, &q, 16, &value), 42);
    EXPECT_DETAILS(octofix_keep_box(&map, &q, &q, &details), 0, 0, 0);
    EXPECT(octofix_get(&map, &p, 16, &value), 42);
    octofix_close(&map);

    /* While a mark stands: 101 voxels on each axis are known, as a box. */
    map = opened(&default_odds, &default_limits);
    EXPECT(octofix_edit(&map, &p, OCTOFIX_SET, 7, false, &details), 0);
    EXPECT(octofix_edit(&map, &r, OCTOFIX_SET, 8, false, &details), 0);
    EXPECT(octofix_track(&map), 0);
    EXPECT_DETAILS(octofix_keep_box(&map, &p, &p, &details), 27, 101ull * 101 * 101, 0);
    EXPECT(octofix_untrack(&map), 0);
    EXPECT_DETAILS(octofix_keep_box(&map, &p, &p, &details), 0, 0, 0);
    EXPECT(octofix_get(&map, &p, 16, &value), 0);
    EXPECT(octofix_get(&map, &r, 16, &value), 42);
    octofix_close(&map);
}

static void try_scans(void) {
    const octofix_limits few = {1 << 20, 100};
    octofix_map map = opened(&default_odds, &few);
    const octofix_point points[] = {at(1000, 0, 0), at(9000, 0, 0), at(4000000, 0, 0)};
    const octofix_pose nowhere = {{0, 0, 0}, 0, 0, 0, 0};
    const octofix_pose outside = {{0, 0, 3276800 * (int64_t)MM}, 1, 0, 0, 0};
    octofix_counted counted = {7, 7};
    EXPECT_DETAILS(octofix_scan(&map, &nowhere, points, 1, &no_range, &counted, &details), 5, 0, 0);
    EXPECT_DETAILS(octofix_scan(&map, &outside, points, 1, &no_range, &counted, &details), 6, 0, 0);
    EXPECT_DETAILS(octofix_scan(&map, &ahead, points, 3, &no_range, &counted, &details), 7, 2, 0);
    EXPECT_DETAILS(octofix_scan(&map, &ahead, points, 2, &no_range, &counted, &details), 8, 1, 102);
    EXPECT(counted.hits, 7);
    const octofix_scan_options one_sided[] = {
        {-1, 5, 0, false}, {-1, 0, -5, false},         {-1, -1, -1, false},
        {-1, 1, 1, false}, {-1, INT32_MAX, -1, false}, {-1, 1, INT32_MIN, false}};
    const uint64_t field[] = {1, 0, 0, 1, 0, 1};
    for (size_t i = 0; i < sizeof one_sided / sizeof *one_sided; i++)
        EXPECT_DETAILS(octofix_scan(&map, &ahead, points, 1, &one_sided[i], &counted, &details), 4,
                       field[i], 0);
    const octofix_scan_options own = {500 * (int64_t)MM, 1000, -1000, false};
    EXPECT_DETAILS(octofix_scan(&map, &ahead, points, 1, &own, &counted, &details), 0, 0, 0);
    EXPECT(counted.hits, 0);
    EXPECT(counted.frees, 5);
    /* a range of 0 cuts each beam where it begins, but one that ends there */
    const octofix_scan_options nowhere_far = {0, 0, 0, false};
    EXPECT_DETAILS(octofix_scan(&map, &ahead, points, 2, &nowhere_far, &counted, &details),
                   0, 0, 0);
    EXPECT(counted.hits, 0);
    EXPECT(counted.frees, 0);
    const octofix_point here = at(0, 0, 0);
    EXPECT_DETAILS(octofix_scan(&map, &ahead, &here, 1, &nowhere_far, &counted, &details), 0, 0, 0);
    EXPECT(counted.hits, 1);
    EXPECT(counted.frees, 0);
    const octofix_pose apart = {at(50, 50, 50), 1, 0, 0, 0};
    const octofix_point near = at(200, 0, 0);
    EXPECT_DETAILS(octofix_scan(&map, &apart, &near, 1, &no_range, &counted, &details), 0, 0, 0);
    EXPECT(counted.hits, 1);
    EXPECT(counted.frees, 2);
    const octofix_scan_options lazy = {-1, 0, 0, true};
    octofix_settings settings;
    EXPECT(octofix_scan(&map, &ahead, points, 0, &lazy, &counted, &details), 0);
    EXPECT(counted.hits + counted.frees, 0);
    EXPECT(octofix_settings_of(&map, &settings), 0);
    EXPECT(settings.is_stale, true);
    octofix_close(&map);
}

/* A scan in the frame of the map: a sensor at 0.1 m on each axis, and points beside the map's. */
static void try_scans_in_map(void) {
    const octofix_limits few = {1 << 20, 100};
    octofix_map map = opened(&default_odds, &few);
    const octofix_point origin = at(100, 100, 100), outside = at(0, 0, 3276800);
    const octofix_point points[] = {at(1100, 100, 100), at(9100, 100, 100), at(4000000, 0, 0)};
    octofix_counted counted = {7, 7};
    EXPECT_DETAILS(octofix_scan_in_map(&map, &outside, points, 1, &no_range, &counted, &details),
                   6, 0, 0);
    EXPECT_DETAILS(octofix_scan_in_map(&map, &origin, points, 3, &no_range, &counted, &details), 7,
                   2, 0);
    EXPECT_DETAILS(octofix_scan_in_map(&map, &origin, points, 2, &no_range, &counted, &details), 8,
                   1, 102);
    const octofix_point far[] = {points[0], {0, 10000000000000000, 0}, {INT64_MIN, 0, 0}};
    for (size_t i = 1; i < 3; i++)
        EXPECT_DETAILS(octofix_scan_in_map(&map, &far[i], points, 1, &no_range, &counted, &details),
                       47, 0, 0);
    EXPECT_DETAILS(octofix_scan_in_map(&map, &origin, far, 3, &no_range, &counted, &details), 47, 1,
                   0);
    const octofix_point apart[] = {{-9000000000000000, 0, 0}, {9000000000000000, 0, 0}};
    EXPECT_DETAILS(octofix_scan_in_map(&map, &apart[0], apart, 2, &no_range, &counted, &details),
                   47, 1, 0);
    const octofix_scan_options own = {-1, 5, 0, false};
    EXPECT_DETAILS(octofix_scan_in_map(&map, &origin, points, 1, &own, &counted, &details), 4, 1,
                   0);
    EXPECT(counted.hits + counted.frees, 14);
    EXPECT_DETAILS(octofix_scan_in_map(&map, &origin, points, 1, &no_range, &counted, &details), 0,
                   0, 0);
    EXPECT(counted.hits, 1);
    EXPECT(counted.frees, 10);
    int32_t value = 0;
    EXPECT(octofix_get(&map, &points[0], 16, &value), 0);
    EXPECT(value, 850);
    octofix_close(&map);
}

static void expect_place(octofix_point place, octofix_point wanted) {
    EXPECT(place.x, wanted.x);
    EXPECT(place.y, wanted.y);
    EXPECT(place.z, wanted.z);
}

/* A quarter turn about z, and one of a third of a turn about (1, 1, 1), which takes x to y. */
static void try_places(void) {
    const octofix_pose quarter = {{10, 20, 30}, 5, 0, 0, 5}, third = {{0, 0, 0}, -7, -7, -7, -7};
    const octofix_pose half_way = {{0, 0, 0}, 2, 1, 0, 0};
    const octofix_point points[] = {{1, 2, 3}, {0, 5, 5}, {0, 0, -1}};
    const octofix_point spare = {4711, 4711, 4711};
    octofix_point places[4] = {spare, spare, spare, spare};
    EXPECT_DETAILS(octofix_place(&quarter, points, 3, places, 4, &details), 0, 0, 0);
    expect_place(places[0], (octofix_point){8, 21, 33});
    expect_place(places[1], (octofix_point){5, 20, 35});
    expect_place(places[3], spare);
    EXPECT_DETAILS(octofix_place(&third, points, 1, places, 1, &details), 0, 0, 0);
    expect_place(places[0], (octofix_point){3, 1, 2});
    expect_place(places[1], (octofix_point){5, 20, 35});
    /* (0, 5, 5) goes to (0, -1, 7), and (0, 0, -1) to (0, 0.8, -0.6), rounded */
    EXPECT_DETAILS(octofix_place(&half_way, points + 1, 2, places, 2, &details), 0, 0, 0);
    expect_place(places[0], (octofix_point){0, -1, 7});
    expect_place(places[1], (octofix_point){0, 1, -1});
    EXPECT_DETAILS(octofix_place(&quarter, points, 0, places, 0, &details), 0, 0, 0);
}

/* Nothing is written where points aren't placed, and the first cause is told. */
static void try_refused_places(void) {
    const int64_t wide = 10000000000000000;
    octofix_pose pose = {{0, 0, wide}, 0, 0, 0, 0};
    const octofix_point points[] = {
        {wide - 1, 1 - wide, wide - 1}, {0, -wide, 0}, {INT64_MIN, 0, 0}};
    octofix_point places[2] = {{4711, 0, 0}, {4711, 0, 0}};
    EXPECT_DETAILS(octofix_place(&pose, points, 3, places, 2, &details), 47, 0, 0);
    pose.at.z = 1 - wide;
    EXPECT_DETAILS(octofix_place(&pose, points, 3, places, 2, &details), 47, 1, 0);
    EXPECT_DETAILS(octofix_place(&pose, points, 1, places, 0, &details), 5, 0, 0);
    pose.w = INT16_MIN;
    EXPECT_DETAILS(octofix_place(&pose, points + 1, 2, places, 2, &details), 47, 0, 0);
    EXPECT_DETAILS(octofix_place(&pose, points, 1, places, 0, &details), OCTOFIX_SMALL_BUFFER, 0,
                   0);
    EXPECT(places[0].x, 4711);
    EXPECT_DETAILS(octofix_place(&pose, points, 1, places, 2, &details), 0, 0, 0);
    expect_place(places[0], (octofix_point){wide - 1, 1 - wide, 0});
    EXPECT(places[1].x, 4711);
}

/* Refusals come in the order of octofix.h, and all that aren't of a point without points, too. */
static void try_order_of_scans(void) {
    octofix_map map = opened(&default_odds, &default_limits);
    const int64_t wide = 10000000000000000;
    octofix_pose pose = {{wide, 0, 0}, 0, 0, 0, 0};
    octofix_point points[] = {at(0, 0, 0), {0, 0, -wide}};
    octofix_scan_options options = {wide, 1, 1, false};
    octofix_counted counted = {7, 7};
    EXPECT_DETAILS(octofix_scan(&map, &pose, points, 2, &options, &counted, &details), 47, 0, 0);
    pose.at = at(0, 0, 3276800);
    EXPECT_DETAILS(octofix_scan(&map, &pose, points, 2, &options, &counted, &details), 47, 1, 0);
    points[1] = at(0, 4000000, 0);
    for (size_t i = 0; i < 3; i += 2)
        EXPECT_DETAILS(octofix_scan(&map, &pose, points, i, &options, &counted, &details), 47, 0,
                       0);
    options.range = -1;
    EXPECT_DETAILS(octofix_scan(&map, &pose, points, 2, &options, &counted, &details), 5, 0, 0);
    EXPECT_DETAILS(octofix_scan(&map, &pose, points, 0, &options, &counted, &details), 5, 0, 0);
    pose.w = 1;
    EXPECT_DETAILS(octofix_scan(&map, &pose, points, 2, &options, &counted, &details), 4, 1, 0);
    EXPECT_DETAILS(octofix_scan(&map, &pose, points, 0, &options, &counted, &details), 4, 1, 0);
    options.miss = -1;
    EXPECT_DETAILS(octofix_scan(&map, &pose, points, 2, &options, &counted, &details), 6, 0, 0);
    EXPECT_DETAILS(octofix_scan(&map, &pose, points, 0, &options, &counted, &details), 6, 0, 0);
    pose.at = at(0, 0, 0);
    EXPECT_DETAILS(octofix_scan(&map, &pose, points, 2, &options, &counted, &details), 7, 1, 0);
    EXPECT(counted.hits, 7);
    EXPECT_DETAILS(octofix_scan(&map, &pose, points, 0, &options, &counted, &details), 0, 0, 0);
    EXPECT(counted.hits + counted.frees, 0);
    octofix_close(&map);
}

static void try_extreme_scans(void) {
    octofix_map map = opened(&default_odds, &default_limits);
    octofix_counted counted;
    for (size_t i = 0; i < EXTREMES; i++) {
        const int64_t far = extremes[i];
        const bool is_wide = far <= -10000000000000000 || far >= 10000000000000000;
        const octofix_point points[] = {{0, 0, 0}, {0, far, 0}};
        const octofix_pose pose = {{0, 0, far}, INT16_MIN, INT16_MAX, INT16_MIN, INT16_MAX};
        const octofix_scan_options options = {far, 0, 0, false};
        const uint32_t wide = is_wide ? OCTOFIX_BAD_ARGUMENT : OCTOFIX_DONE;
        EXPECT(octofix_scan(&map, &ahead, points, 2, &no_range, &counted, &details), wide);
        EXPECT(details.first, is_wide ? 1 : 0);
        EXPECT(octofix_scan(&map, &pose, points, 1, &no_range, &counted, &details), wide);
        EXPECT(octofix_scan(&map, &ahead, points, 1, &options, &counted, &details),
               far > 0 ? wide : OCTOFIX_DONE);
    }
    octofix_close(&map);
}

static void try_limits(void) {
    octofix_map map = opened(&default_odds, &default_limits);
    const octofix_point p = at(0, 0, 0), q = at(100, 100, 100), far = at(0, -3276801, 0);
    octofix_box box = {{1, 1, 1}, {1, 1, 1}};
    octofix_counted counted;
    EXPECT(octofix_window(&map, &box), 44);
    EXPECT(box.low.x, 1);
    EXPECT_DETAILS(octofix_limit(&map, &far, &far, &details), 24, 1, 0);
    EXPECT_DETAILS(octofix_limit(&map, &p, &far, &details), 24, 2, 0);
    EXPECT_DETAILS(octofix_limit(&map, &q, &p, &details), 26, 0, 0);
    EXPECT_DETAILS(octofix_limit(&map, &p, &q, &details), 0, 0, 0);
    EXPECT(octofix_window(&map, &box), 0);
    EXPECT(box.low.x, 32768);
    EXPECT(box.high.z, 32769);
    const octofix_point end = at(500, 0, 0);
    EXPECT(octofix_scan(&map, &ahead, &end, 1, &no_range, &counted, &details), 0);
    EXPECT(counted.hits, 0);
    EXPECT(counted.frees, 2);
    EXPECT(octofix_no_limit(&map), 0);
    EXPECT(octofix_no_limit(&map), 0);
    EXPECT(octofix_window(&map, &box), 44);
    octofix_close(&map);
}

static void try_queries(void) {
    octofix_map map = opened(&default_odds, &default_limits);
    const octofix_point p = at(50, 50, 50), q = at(-50, 50, 50), far = at(0, 0, -3276801);
    const octofix_point asked[] = {p, q, far};
    octofix_answer answers[3] = {{9, 9}, {9, 9}, {9, 9}};
    int32_t value = 7;
    EXPECT(octofix_edit(&map, &p, OCTOFIX_SET, 850, false, &details), 0);
    EXPECT(octofix_get(&map, &q, 16, &value), 42);
    EXPECT(octofix_get(&map, &far, 16, &value), 24);
    EXPECT(octofix_get(&map, &far, 17, &value), 24);
    EXPECT(octofix_get(&map, &p, 17, &value), 25);
    EXPECT(octofix_get(&map, &p, UINT32_MAX, &value), 25);
    EXPECT(value, 7);
    EXPECT(octofix_get_all(&map, asked, 3, 16, answers, 2), 46);
    EXPECT(answers[0].code, 9);
    EXPECT(octofix_get_all(&map, asked, 3, 16, answers, 3), 0);
    EXPECT(answers[0].code, 0);
    EXPECT(answers[0].value, 850);
    EXPECT(answers[1].code, 42);
    EXPECT(answers[1].value, 0);
    EXPECT(answers[2].code, 24);
    EXPECT(octofix_get_all(&map, asked, 0, 99, answers, 0), 0);
    EXPECT(octofix_get_all(&map, asked, 1, 17, answers, 1), 0);
    EXPECT(answers[0].code, 25);

    octofix_key key = {1, 2, 3};
    EXPECT_DETAILS(octofix_cast(&map, &q, &p, false, &key, &details), 42, 0, 0);
    EXPECT(key.x, 32767);
    EXPECT_DETAILS(octofix_cast(&map, &q, &p, true, &key, &details), 0, 0, 0);
    EXPECT(key.x, 32768);
    EXPECT_DETAILS(octofix_cast(&map, &q, &q, true, &key, &details), 43, 0, 0);
    EXPECT_DETAILS(octofix_cast(&map, &far, &far, true, &key, &details), 24, 1, 0);
    EXPECT_DETAILS(octofix_cast(&map, &p, &far, true, &key, &details), 24, 2, 0);
    EXPECT(key.x, 32768);
    const octofix_segment ways[] = {{q, p}, {q, q}, {p, far}};
    octofix_stop stops[3];
    EXPECT(octofix_cast_all(&map, ways, 3, true, stops, 2), 46);
    EXPECT(octofix_cast_all(&map, ways, 3, true, stops, 3), 0);
    EXPECT(stops[0].code, 0);
    EXPECT(stops[0].key.x, 32768);
    EXPECT(stops[1].code, 43);
    EXPECT(stops[1].key.x, 0);
    EXPECT(stops[2].code, 24);
    EXPECT(octofix_cast_all(&map, ways, 0, false, stops, 0), 0);
    octofix_close(&map);
}

/* Of a map with one free block of eight voxels from p to q. */
static void try_leaves_of(octofix_map *map, const octofix_point *p, const octofix_point *q) {
    const octofix_point far = at(0, 0, -3276801);
    EXPECT(octofix_leaves_of(map, OCTOFIX_FREE_VOXELS, blocks, 0, &count), 46);
    EXPECT(count, 1);
    blocks[0].depth = 0;
    EXPECT(octofix_leaves_of(map, OCTOFIX_FREE_VOXELS, blocks, 64, &count), 0);
    EXPECT(blocks[0].depth, 15);
    EXPECT(octofix_leaves_of(map, OCTOFIX_OCCUPIED_VOXELS, blocks, 64, &count), 0);
    EXPECT(count, 0);
    EXPECT(octofix_leaves_of(map, OCTOFIX_KNOWN_VOXELS, blocks, 64, &count), 0);
    EXPECT(count, 1);
    EXPECT(octofix_leaves_of(map, 3, blocks, 64, &count), 47);
    EXPECT_DETAILS(octofix_leaves_of_in(map, OCTOFIX_FREE_VOXELS, p, q, blocks, 64, &count,
                                        &details), 0, 0, 0);
    EXPECT(count, 1);
    EXPECT_DETAILS(octofix_leaves_of_in(map, OCTOFIX_OCCUPIED_VOXELS, p, q, blocks, 0, &count,
                                        &details), 0, 0, 0);
    EXPECT(count, 0);
    /* The number is at fault first, then the points. */
    EXPECT_DETAILS(octofix_leaves_of_in(map, 3, &far, q, blocks, 0, &count, &details), 47, 0, 0);
    EXPECT_DETAILS(octofix_leaves_of_in(map, 1, p, &far, blocks, 0, &count, &details), 24, 2, 0);
    EXPECT_DETAILS(octofix_leaves_of_in(map, 1, q, p, blocks, 0, &count, &details), 26, 0, 0);
}

static void try_lists(void) {
    octofix_map map = opened(&default_odds, &default_limits);
    const octofix_point p = at(50, 50, 50), q = at(150, 150, 150), far = at(0, 0, -3276801);
    const octofix_point low = at(-3276800, -3276800, -3276800);
    octofix_box box = {{9, 9, 9}, {9, 9, 9}};
    EXPECT(octofix_leaves(&map, blocks, 0, &count), 0);
    EXPECT(count, 0);
    EXPECT(octofix_bounds(&map, OCTOFIX_KNOWN_VOXELS, &box), 44);
    EXPECT(octofix_bounds(&map, OCTOFIX_FREE_VOXELS, &box), 44);
    EXPECT(octofix_bounds(&map, 3, &box), 47);
    EXPECT(octofix_bounds(&map, UINT32_MAX, &box), 47);
    EXPECT(box.low.x, 9);
    EXPECT(octofix_edit_box(&map, &p, &q, OCTOFIX_SET, -100, &details), 0);
    count = 99;
    EXPECT(octofix_leaves(&map, blocks, 0, &count), 46);
    EXPECT(count, 1);
    EXPECT(octofix_leaves(&map, blocks, 64, &count), 0);
    EXPECT(blocks[0].depth, 15);
    EXPECT(blocks[0].x, 16384);
    EXPECT(blocks[0].value, -100);
    EXPECT_DETAILS(octofix_leaves_in(&map, &q, &q, blocks, 1, &count, &details), 0, 0, 0);
    EXPECT(count, 1);
    EXPECT_DETAILS(octofix_leaves_in(&map, &low, &low, blocks, 0, &count, &details), 0, 0, 0);
    EXPECT(count, 0);
    EXPECT_DETAILS(octofix_leaves_in(&map, &p, &q, blocks, 0, &count, &details), 46, 0, 0);
    EXPECT_DETAILS(octofix_leaves_in(&map, &far, &p, blocks, 0, &count, &details), 24, 1, 0);
    EXPECT_DETAILS(octofix_leaves_in(&map, &p, &far, blocks, 0, &count, &details), 24, 2, 0);
    EXPECT_DETAILS(octofix_leaves_in(&map, &q, &p, blocks, 0, &count, &details), 26, 0, 0);
    try_leaves_of(&map, &p, &q);

    EXPECT_DETAILS(octofix_list(&map, &p, &q, 16, blocks, 7, &count, &details), 46, 0, 0);
    EXPECT(count, 8);
    EXPECT_DETAILS(octofix_list(&map, &p, &q, 16, blocks, 64, &count, &details), 0, 0, 0);
    EXPECT(blocks[7].z, 32769);
    EXPECT_DETAILS(octofix_list(&map, &far, &q, 16, blocks, 64, &count, &details), 24, 1, 0);
    EXPECT_DETAILS(octofix_list(&map, &p, &far, 16, blocks, 64, &count, &details), 24, 2, 0);
    EXPECT_DETAILS(octofix_list(&map, &p, &q, 17, blocks, 64, &count, &details), 25, 0, 0);
    EXPECT_DETAILS(octofix_list(&map, &q, &p, 16, blocks, 64, &count, &details), 26, 0, 0);
    /* 32770 voxels on each axis. */
    EXPECT_DETAILS(octofix_list(&map, &low, &q, 16, blocks, 64, &count, &details), 9,
                   32770ull * 32770 * 32770, 0);
    EXPECT(octofix_bounds(&map, OCTOFIX_KNOWN_VOXELS, &box), 0);
    EXPECT(box.low.x, 32768);
    EXPECT(box.high.x, 32769);
    EXPECT(octofix_bounds(&map, OCTOFIX_OCCUPIED_VOXELS, &box), 44);
    EXPECT(octofix_edit(&map, &p, OCTOFIX_ADD, 1, true, &details), 0);
    EXPECT_DETAILS(octofix_list(&map, &p, &q, 15, blocks, 64, &count, &details), 22, 0, 0);
    EXPECT_DETAILS(octofix_list(&map, &p, &far, 17, blocks, 64, &count, &details), 24, 2, 0);
    EXPECT_DETAILS(octofix_list(&map, &q, &low, 17, blocks, 64, &count, &details), 25, 0, 0);
    EXPECT_DETAILS(octofix_list(&map, &q, &low, 15, blocks, 64, &count, &details), 26, 0, 0);
    EXPECT_DETAILS(octofix_list(&map, &low, &q, 15, blocks, 64, &count, &details), 22, 0, 0);
    int32_t value;
    EXPECT(octofix_get(&map, &p, 17, &value), 25);
    EXPECT(octofix_leaves(&map, blocks, 64, &count), 0);
    EXPECT(count, 8);
    octofix_close(&map);
}

/* Of a map with a free block of eight voxels from 0 on, and an occupied voxel above one of them. */
static void try_grids(void) {
    octofix_map map = opened(&default_odds, &default_limits);
    const octofix_point p = at(50, 50, 50), q = at(150, 150, 150), top = at(150, 50, 250);
    const octofix_point low = at(-50, -50, 0), high = at(150, 150, 250), far = at(0, 0, 3276800);
    const octofix_point corner = at(-3276800, -3276800, 0), beyond = at(3276700, -3174400, 0);
    const octofix_point last = at(3276700, -3174401, 0); /* in the row before it, which is 1023 */
    EXPECT(octofix_edit_box(&map, &p, &q, OCTOFIX_SET, -100, &details), 0);
    EXPECT(octofix_edit(&map, &top, OCTOFIX_SET, 100, true, &details), 0); /* it is stale now */
    memset(cells, 7, sizeof cells);
    EXPECT_DETAILS(octofix_grid(&map, &low, &high, cells, 8, &count, &details), 46, 0, 0);
    EXPECT(count, 9);
    EXPECT(cells[0], 7);
    EXPECT_DETAILS(octofix_grid(&map, &low, &high, cells, 64, &count, &details), 0, 0, 0);
    EXPECT(count, 9);
    static const int8_t whole[10] = {-1, -1, -1, -1, 0, 100, -1, 0, 0, 7};
    EXPECT(memcmp(cells, whole, sizeof whole), 0);
    /* Below the occupied voxel, and at it alone. */
    EXPECT_DETAILS(octofix_grid(&map, &p, &q, cells, 64, &count, &details), 0, 0, 0);
    EXPECT(count, 4);
    static const int8_t below[5] = {0, 0, 0, 0, 0};
    EXPECT(memcmp(cells, below, sizeof below), 0);
    EXPECT_DETAILS(octofix_grid(&map, &top, &top, cells, 1, &count, &details), 0, 0, 0);
    EXPECT(count, 1);
    EXPECT(cells[0], OCTOFIX_CELL_OCCUPIED);
    /* What is refused writes nothing but the details. */
    count = 4711;
    cells[0] = 7;
    EXPECT_DETAILS(octofix_grid(&map, &far, &far, cells, 64, &count, &details), 24, 1, 0);
    EXPECT_DETAILS(octofix_grid(&map, &q, &far, cells, 64, &count, &details), 24, 2, 0);
    EXPECT_DETAILS(octofix_grid(&map, &q, &p, cells, 64, &count, &details), 26, 0, 0);
    /* 65,536 x 1,024 columns are 2^26, and one more row of them is too many. */
    EXPECT_DETAILS(octofix_grid(&map, &corner, &last, cells, 64, &count, &details), 46, 0, 0);
    EXPECT(count, 65536 * 1024);
    count = 4711;
    EXPECT_DETAILS(octofix_grid(&map, &corner, &beyond, cells, 64, &count, &details), 38,
                   65536ull * 1025, 0);
    EXPECT(count, 4711);
    EXPECT(cells[0], 7);
    octofix_close(&map);
}

static void try_rays(void) {
    const octofix_point p = at(50, 50, 50), q = at(-150, 50, 50), far = at(3276800, 0, 0);
    EXPECT_DETAILS(octofix_ray(RES, &p, &q, keys, 2, &count, &details), 46, 0, 0);
    EXPECT(count, 3);
    keys[3].x = 4711;
    EXPECT_DETAILS(octofix_ray(RES, &p, &q, keys, 64, &count, &details), 0, 0, 0);
    EXPECT(count, 3);
    EXPECT(keys[0].x, 32768);
    EXPECT(keys[2].x, 32766);
    EXPECT(keys[3].x, 4711);
    EXPECT_DETAILS(octofix_ray(99999, &p, &q, keys, 64, &count, &details), 3, 0, 0);
    EXPECT_DETAILS(octofix_ray(RES, &far, &q, keys, 64, &count, &details), 24, 1, 0);
    EXPECT_DETAILS(octofix_ray(RES, &p, &far, keys, 64, &count, &details), 24, 2, 0);
    for (size_t i = 0; i < EXTREMES; i++) {
        const octofix_point there = {extremes[i], extremes[i], extremes[i]};
        const bool is_outside = extremes[i] < -1 || extremes[i] > 1;
        EXPECT(octofix_ray(RES, &p, &there, keys, 64, &count, &details), is_outside ? 24 : 0);
        EXPECT(octofix_ray(extremes[i], &p, &q, keys, 64, &count, &details), 3);
    }
}

static void try_changes(void) {
    octofix_map map = opened(&default_odds, &default_limits);
    const octofix_point p = at(50, 50, 50), q = at(150, 50, 50), r = at(250, 50, 50);
    const octofix_point low = at(-5000, -5000, -5000), high = at(5000, 5000, 5000);
    EXPECT(octofix_changes(&map, changes, 64, &count), 28);
    EXPECT(octofix_edit(&map, &p, OCTOFIX_SET, 1, false, &details), 0);
    EXPECT(octofix_edit(&map, &q, OCTOFIX_SET, 1, false, &details), 0);
    EXPECT(octofix_track(&map), 0);
    EXPECT(octofix_changes(&map, changes, 0, &count), 0);
    EXPECT(count, 0);
    EXPECT(octofix_edit(&map, &p, OCTOFIX_SET, -1, false, &details), 0);
    EXPECT(octofix_edit(&map, &q, OCTOFIX_FORGET, 0, false, &details), 0);
    EXPECT(octofix_edit(&map, &r, OCTOFIX_SET, -1, false, &details), 0);
    EXPECT(octofix_changes(&map, changes, 2, &count), 46);
    EXPECT(count, 3);
    EXPECT(octofix_changes(&map, changes, 3, &count), 0);
    EXPECT(changes[0].kind, OCTOFIX_FREED);
    EXPECT(changes[1].kind, OCTOFIX_LOST);
    EXPECT(changes[2].kind, OCTOFIX_NEW);
    EXPECT(changes[2].key.x, 32770);
    EXPECT_DETAILS(octofix_edit_box(&map, &low, &high, OCTOFIX_SET, 1, &details), 27,
                   101ull * 101 * 101, 0);
    EXPECT_DETAILS(octofix_edit_box(&map, &high, &low, OCTOFIX_SET, 1, &details), 26, 0, 0);
    EXPECT(octofix_track(&map), 0);
    EXPECT(octofix_edit(&map, &p, OCTOFIX_SET, 1, false, &details), 0);
    EXPECT(octofix_changes(&map, changes, 64, &count), 0);
    EXPECT(changes[0].kind, OCTOFIX_OCCUPIED);
    EXPECT(octofix_untrack(&map), 0);
    EXPECT(octofix_untrack(&map), 0);
    EXPECT(octofix_changes(&map, changes, 64, &count), 28);
    octofix_close(&map);
}

static void load(octofix_map *map, int line, const char *text, const char *records, size_t length,
                 uint32_t code, uint64_t first, uint64_t second) {
    const size_t head = strlen(text);
    memcpy(bytes, text, head);
    memcpy(bytes + head, records, length);
    details.first = details.second = 4711;
    expect_number(line, text, octofix_load(map, bytes, head + length, &details), code);
    expect_number(line, "details.first", details.first, first);
    expect_number(line, "details.second", details.second, second);
}

#define LOAD(text, records, code, first, second) \
    load(&map, __LINE__, text, records, sizeof records - 1, code, first, second)
#define FIRST "# Octomap OcTree binary file\n"

static void try_loads(void) {
    octofix_map map = opened(&default_odds, &default_limits);
    LOAD("# Octomap OcTree file\n", "", 11, 0, 0);
    LOAD("", "", 10, 0, 0);
    LOAD(FIRST "id ColorOcTree\ndata\n", "", 12, 0, 0);
    LOAD(FIRST "data\n", "", 13, 0, 0);
    LOAD(FIRST "id OcTree\ndata\n", "", 13, 1, 0);
    LOAD(FIRST "id OcTree\nres 0.1\ndata\n", "", 13, 2, 0);
    LOAD(FIRST "id OcTree\nres 0.1\nsize 0\n", "", 13, 3, 0);
    LOAD(FIRST "id OcTree\nres 0\nsize 0\ndata\n", "", 14, 1, 0);
    LOAD(FIRST "id OcTree\nres 0.1\nsize x\ndata\n", "", 14, 2, 0);
    LOAD(FIRST "id OcTree\nres 0.1\nsize 9\ndata\n", "\x55", 17, 60, 0);
    LOAD(FIRST "id OcTree\nres 0.1\nsize 9\ndata\n", "\x55\x55\x55", 18, 61, 0);
    LOAD(FIRST "id OcTree\nres 0.1\nsize 8\ndata\n", "\x55\x55", 19, 8, 9);
    LOAD(FIRST "id OcTree\nres 0.2\nsize 0\ndata\n", "", 35, 200000000, 100000000);
    /* Sixteen records, each with child 0 alone; that of depth 15 would have a voxel parted. */
    static const char deep[] = "\3\0\3\0\3\0\3\0\3\0\3\0\3\0\3\0\3\0\3\0\3\0\3\0\3\0\3\0\3\0\3\0";
    LOAD(FIRST "id OcTree\nres 0.1\nsize 17\ndata\n", deep, 16, 90, 0);
    EXPECT(octofix_edit_box(&map, &(octofix_point){0, 0, 0}, &(octofix_point){0, 0, 0},
                            OCTOFIX_SET, 1, &details),
           0);
    LOAD(FIRST "id OcTree\nres 0.1\nsize 9\ndata\n", "\xaa\xaa", 0, 0, 0);
    int32_t value = 0;
    EXPECT(octofix_get(&map, &(octofix_point){5, 5, 5}, 0, &value), 0);
    EXPECT(value, 3500);
    EXPECT(octofix_save(&map, bytes, 0, &count), 46);
    EXPECT(octofix_save(&map, bytes, count, &count), 0);
    EXPECT(octofix_load(&map, bytes, count, &details), 0);
    octofix_close(&map);

    static uint8_t long_head[70000] = FIRST;
    map = opened(&default_odds, &default_limits);
    EXPECT_DETAILS(octofix_load(&map, long_head, sizeof long_head, &details), 15, 0, 0);
    octofix_close(&map);
}

static void try_snapshots(void) {
    octofix_map map = opened(&default_odds, &default_limits);
    const octofix_point p = at(50, 50, 50);
    EXPECT(octofix_edit(&map, &p, OCTOFIX_SET, 850, false, &details), 0);
    EXPECT(octofix_snapshot(&map, bytes, 0, &count), 46);
    const size_t length = count;
    EXPECT(octofix_snapshot(&map, bytes, sizeof bytes, &count), 0);
    EXPECT(octofix_clear(&map), 0);
    EXPECT_DETAILS(octofix_restore(&map, bytes, length, &details), 0, 0, 0);
    int32_t value = 0;
    EXPECT(octofix_get(&map, &p, 16, &value), 0);
    EXPECT(value, 850);
    EXPECT_DETAILS(octofix_restore(&map, bytes, 0, &details), 20, 0, 0);
    EXPECT_DETAILS(octofix_restore(&map, bytes, length - 1, &details), 17, length - 1, 0);
    EXPECT_DETAILS(octofix_restore(&map, bytes, length + 1, &details), 18, length, 0);
    octofix_answer answers[2];
    const octofix_point both[] = {p, at(250, 50, 50)};
    EXPECT(octofix_get_all(&map, both, 2, 16, answers, 2), 0);
    EXPECT(answers[0].code, 0);
    EXPECT(answers[0].value, 850);
    EXPECT(answers[1].code, 42);
    static uint8_t file[512];
    EXPECT(octofix_save(&map, file, sizeof file, &count), 0);
    EXPECT(octofix_load(&map, file, count, &details), 0);
    EXPECT(octofix_get(&map, &p, 16, &value), 0);
    EXPECT(value, 3500); /* a file has classes alone */
    bytes[15] ^= 1; /* the last byte of the resolution */
    EXPECT_DETAILS(octofix_restore(&map, bytes, length, &details), 35, 100000001, 100000000);
    bytes[15] ^= 1;
    bytes[16] = 0x80; /* a hit below 0 */
    EXPECT_DETAILS(octofix_restore(&map, bytes, length, &details), 21, 16, 0);
    EXPECT(octofix_get(&map, &p, 16, &value), 0);
    octofix_close(&map);

    const octofix_limits few = {16, 100};
    map = opened(&default_odds, &default_limits);
    octofix_map small = opened(&default_odds, &few);
    const octofix_point q = at(-50, 50, 50);
    EXPECT(octofix_edit(&map, &p, OCTOFIX_SET, 1, false, &details), 0);
    EXPECT(octofix_edit(&map, &q, OCTOFIX_SET, 1, false, &details), 0);
    EXPECT(octofix_snapshot(&map, bytes, sizeof bytes, &count), 0);
    EXPECT_DETAILS(octofix_restore(&small, bytes, count, &details), 23, 0, 31);
    EXPECT(octofix_save(&map, bytes, sizeof bytes, &count), 0);
    EXPECT_DETAILS(octofix_load(&small, bytes, count, &details), 23, 0, 31);
    octofix_close(&small);
    octofix_close(&map);
}

static void try_the_rest(void) {
    octofix_map map = opened(&default_odds, &default_limits);
    const octofix_point p = at(50, 50, 50);
    octofix_settings settings;
    octofix_counts counts;
    octofix_least_tree least;
    uint64_t held = 0, more = 0;
    EXPECT(octofix_memory(&map, &held), 0);
    EXPECT(held < 4096, true);
    EXPECT(octofix_edit(&map, &p, OCTOFIX_SET, 100, true, &details), 0);
    EXPECT(octofix_track(&map), 0);
    EXPECT(octofix_memory(&map, &more), 0);
    EXPECT(more > held, true);
    EXPECT(octofix_settings_of(&map, &settings), 0);
    EXPECT(settings.res, RES);
    EXPECT(settings.odds.hit, 850);
    EXPECT(settings.odds.thr, 0);
    EXPECT(settings.limits.max_groups, 1 << 24);
    EXPECT(settings.limits.max_cells, 1 << 26);
    EXPECT(settings.is_stale, true);
    EXPECT(settings.is_tracked, true);
    EXPECT(octofix_refresh(&map), 0);
    EXPECT(octofix_prune(&map), 0);
    EXPECT(octofix_settings_of(&map, &settings), 0);
    EXPECT(settings.is_stale, false);
    EXPECT(octofix_counts_of(&map, &counts), 0);
    EXPECT(counts.groups, 16);
    EXPECT(counts.nodes, 17);
    EXPECT(octofix_least_tree_of(&map, &least), 0);
    EXPECT(least.groups, 16);
    EXPECT(least.nodes, 17);
    EXPECT(least.leaves, 1);
    int32_t value = 0;
    EXPECT(octofix_max_likelihood(&map), 0);
    EXPECT(octofix_get(&map, &p, 16, &value), 0);
    EXPECT(value, 3500);
    EXPECT(octofix_clear(&map), 0);
    EXPECT(octofix_get(&map, &p, 16, &value), 42);
    EXPECT(octofix_settings_of(&map, &settings), 0);
    EXPECT(settings.is_tracked, false);
    const octofix_odds odds = {700, -300, -1000, 2000, 5};
    const octofix_limits limits = {1000, 100000};
    octofix_map other = opened(&odds, &limits);
    EXPECT(octofix_settings_of(&other, &settings), 0);
    EXPECT(settings.odds.hit, 700);
    EXPECT(settings.odds.max, 2000);
    EXPECT(settings.limits.max_groups, 1000);
    EXPECT(settings.limits.max_cells, 100000);
    EXPECT(settings.is_stale, false);
    EXPECT(settings.is_tracked, false);
    EXPECT(octofix_close(&other), 0);
    octofix_map moved = map; /* and the old place isn't used again */
    EXPECT(octofix_get(&moved, &p, 0, &value), 42);
    EXPECT(octofix_close(&moved), 0);
}

/* Extreme coordinates, in every call that takes points. */
static void try_extreme_points(void) {
    octofix_map map = opened(&default_odds, &default_limits);
    const octofix_point p = {0, 0, 0};
    for (size_t i = 0; i < EXTREMES * 3; i++) {
        octofix_point q = {0, 0, 0};
        *(i % 3 == 0 ? &q.x : i % 3 == 1 ? &q.y : &q.z) = extremes[i / 3];
        const int64_t c = extremes[i / 3];
        const bool is_outside = c < -1 || c > 1;
        const octofix_point low = c < 0 ? q : p, high = c < 0 ? p : q;
        octofix_key key;
        int32_t value;
        EXPECT(octofix_edit(&map, &q, OCTOFIX_SET, 1, false, &details), is_outside ? 24 : 0);
        EXPECT(octofix_edit_box(&map, &low, &high, OCTOFIX_SET, 1, &details), is_outside ? 24 : 0);
        EXPECT(octofix_limit(&map, &low, &high, &details), is_outside ? 24 : 0);
        EXPECT(octofix_get(&map, &q, 16, &value), is_outside ? 24 : 0);
        EXPECT(octofix_cast(&map, &p, &q, true, &key, &details), is_outside ? 24 : 0);
        EXPECT(octofix_list(&map, &low, &high, 16, blocks, 64, &count, &details),
               is_outside ? 24 : 0);
        EXPECT(octofix_leaves_in(&map, &low, &high, blocks, 64, &count, &details),
               is_outside ? 24 : 0);
    }
    octofix_close(&map);
}

int main(void) {
    try_texts();
    try_opening();
    try_closed_handle();
    try_edits();
    try_full();
    try_keeps();
    try_scans();
    try_scans_in_map();
    try_places();
    try_refused_places();
    try_order_of_scans();
    try_extreme_scans();
    try_limits();
    try_queries();
    try_lists();
    try_grids();
    try_rays();
    try_changes();
    try_loads();
    try_snapshots();
    try_the_rest();
    try_extreme_points();
    printf("codes: %d failed\n", failed);
    return failed != 0;
}
