/* Lets each allocation fail in turn, in every call that changes a map or lists things. A call then
 * answers that memory ran out, with the map as it was, or it was done all the same; at the end all
 * memory is given back. The other calls take no memory, or answer the same without it. Needs the
 * linker's --wrap of malloc, calloc, realloc and free. */
#include "expect.h"

static long to_go = -1; /* how many allocations still pass, or all */
static long made;       /* allocations so far */
static long live;       /* blocks that aren't given back */

void *__real_malloc(size_t size);
void *__real_calloc(size_t count, size_t size);
void *__real_realloc(void *old, size_t size);
void __real_free(void *old);
void *__wrap_malloc(size_t size);
void *__wrap_calloc(size_t count, size_t size);
void *__wrap_realloc(void *old, size_t size);
void __wrap_free(void *old);

static bool passes(void) {
    made++;
    return to_go < 0 || to_go-- > 0;
}

static void *counted_block(void *block) {
    live += block != NULL;
    return block;
}

void *__wrap_malloc(size_t size) { return passes() ? counted_block(__real_malloc(size)) : NULL; }

void *__wrap_calloc(size_t count, size_t size) {
    return passes() ? counted_block(__real_calloc(count, size)) : NULL;
}

void *__wrap_realloc(void *old, size_t size) {
    if (!passes()) return NULL;
    void *block = __real_realloc(old, size);
    live += block != NULL && old == NULL;
    return block;
}

void __wrap_free(void *old) {
    live -= old != NULL;
    __real_free(old);
}

enum { POINTS = 40, ROOM = 1 << 17, MANY = 70000 };

static octofix_details details;
static octofix_point points[POINTS];
static octofix_point_edit edits[POINTS];
static octofix_block blocks[ROOM];
static octofix_change changes[ROOM];
static octofix_key keys[ROOM];
static uint8_t buffer[ROOM], file[ROOM], snapshot[ROOM];
static size_t file_length, snapshot_length;

static uint32_t scan(octofix_map *map) {
    octofix_counted counted;
    return octofix_scan(map, &ahead, points, POINTS, &no_range, &counted, &details);
}
static uint32_t scan_in_map(octofix_map *map) {
    octofix_counted counted;
    return octofix_scan_in_map(map, &ahead.at, points, POINTS, &no_range, &counted, &details);
}
static uint32_t edit(octofix_map *map) {
    return octofix_edit(map, &points[7], OCTOFIX_SET, 77, false, &details);
}
static uint32_t edit_box(octofix_map *map) {
    const octofix_point low = at(-900, -900, -900), high = at(900, 800, 700);
    return octofix_edit_box(map, &low, &high, OCTOFIX_ADD, 100, &details);
}
static uint32_t keep_box(octofix_map *map) {
    const octofix_point low = at(0, 0, -500), high = at(2000, 900, 900);
    return octofix_keep_box(map, &low, &high, &details);
}
static uint32_t edit_all(octofix_map *map) {
    size_t done = 0;
    const uint32_t code = octofix_edit_all(map, edits, 1, false, &done, &details);
    EXPECT(done, code == OCTOFIX_DONE ? 1 : 0);
    return code;
}
static uint32_t load(octofix_map *map) { return octofix_load(map, file, file_length, &details); }
static uint32_t restore(octofix_map *map) {
    return octofix_restore(map, snapshot, snapshot_length, &details);
}
static uint32_t clear(octofix_map *map) { return octofix_clear(map); }
static uint32_t refresh(octofix_map *map) { return octofix_refresh(map); }
static uint32_t prune(octofix_map *map) { return octofix_prune(map); }
static uint32_t max_likelihood(octofix_map *map) { return octofix_max_likelihood(map); }
static uint32_t track(octofix_map *map) { return octofix_track(map); }
/* The other map of a merge: its allocations neither fail nor count. */
static octofix_map other_map(void) {
    const octofix_point low = at(-900, -900, -900), high = at(900, 800, 700);
    const long passing = to_go, made_before = made;
    to_go = -1;
    octofix_map other = opened(&default_odds, &default_limits);
    EXPECT(octofix_edit_box(&other, &low, &high, OCTOFIX_SET, 100, &details), OCTOFIX_DONE);
    to_go = passing;
    made = made_before;
    return other;
}
static uint32_t merge(octofix_map *map) {
    octofix_map other = other_map();
    const uint32_t code = octofix_merge(map, &other, OCTOFIX_GREATEST, &details);
    octofix_close(&other);
    return code;
}
static uint32_t merge_shifted(octofix_map *map) {
    octofix_map other = other_map();
    const uint32_t code =
        octofix_merge_shifted(map, &other, OCTOFIX_GREATEST, &details, 3, -2, 1);
    octofix_close(&other);
    return code;
}
/* (the copy is closed again: it is there exactly where the call was done) */
static uint32_t copy(octofix_map *map) {
    octofix_map other = {0};
    const uint32_t code = octofix_copy(map, &other);
    EXPECT(other.is_open, code == OCTOFIX_DONE);
    octofix_close(&other);
    return code;
}
static uint32_t counts(octofix_map *map) {
    octofix_counts least;
    return octofix_counts_of(map, &least);
}
static uint32_t leaves(octofix_map *map) {
    size_t count;
    return octofix_leaves(map, blocks, ROOM, &count);
}
static uint32_t leaves_in(octofix_map *map) {
    const octofix_point low = at(0, 0, -1000), high = at(1500, 900, 700);
    size_t count;
    return octofix_leaves_in(map, &low, &high, blocks, ROOM, &count, &details);
}
static uint32_t leaves_of(octofix_map *map) {
    size_t count;
    return octofix_leaves_of(map, OCTOFIX_OCCUPIED_VOXELS, blocks, ROOM, &count);
}
static uint32_t list(octofix_map *map) {
    const octofix_point low = at(0, 0, -1000), high = at(1500, 900, 700);
    size_t count;
    return octofix_list(map, &low, &high, 15, blocks, ROOM, &count, &details);
}
static uint32_t list_changes(octofix_map *map) {
    size_t count;
    const uint32_t code = octofix_changes(map, changes, ROOM, &count);
    return code == OCTOFIX_NOT_TRACKED ? OCTOFIX_DONE : code;
}
static uint32_t save(octofix_map *map) {
    size_t length;
    return octofix_save(map, buffer, ROOM, &length);
}
static uint32_t take_snapshot(octofix_map *map) {
    size_t length;
    return octofix_snapshot(map, buffer, ROOM, &length);
}

static uint32_t (*const calls[])(octofix_map *) = {
    scan,   edit,           edit_box, edit_all,  load, restore, clear,        refresh, prune,
    counts, max_likelihood, leaves,   leaves_in, list, save,    list_changes, track,
    take_snapshot, merge,   leaves_of, scan_in_map, copy, keep_box,
    merge_shifted};

/* A map that is scanned, and tracked where that is wanted. */
static octofix_map scanned(bool is_tracked) {
    octofix_map map = opened(&default_odds, &default_limits);
    if (is_tracked) octofix_track(&map);
    EXPECT(scan(&map), OCTOFIX_DONE);
    return map;
}

static size_t values_of(const octofix_map *map, uint8_t *bytes) {
    size_t length = 0;
    EXPECT(octofix_snapshot(map, bytes, ROOM, &length), OCTOFIX_DONE);
    return length;
}

/* Lets the allocations of one call fail, each in turn; how many calls answered so. */
static long fail_each(uint32_t (*call)(octofix_map *), bool is_tracked) {
    static uint8_t before[ROOM], after[ROOM];
    long told = 0;
    for (long passing = 0;; passing++) {
        octofix_map map = scanned(is_tracked);
        octofix_settings was, is;
        const size_t length = values_of(&map, before);
        octofix_settings_of(&map, &was);
        to_go = passing;
        const long made_before = made;
        const uint32_t code = call(&map);
        const bool has_failed = made - made_before > passing;
        to_go = -1;
        if (code == OCTOFIX_MEMORY) {
            told++;
            EXPECT(details.first + details.second, 0);
            EXPECT(values_of(&map, after), length);
            EXPECT(memcmp(before, after, length), 0);
            octofix_settings_of(&map, &is);
            EXPECT(is.is_stale, was.is_stale);
            EXPECT(is.is_tracked, was.is_tracked);
        } else {
            EXPECT(code, OCTOFIX_DONE);
        }
        octofix_close(&map);
        EXPECT(live, 0);
        if (!has_failed) return told;
    }
}

/* Lets the allocations of many edits fail, each in turn: those that were done stand, and no other.
 * How many calls answered so. */
static long fail_edits(void) {
    static uint8_t came[ROOM], wanted[ROOM];
    long told = 0;
    for (long passing = 0;; passing++) {
        octofix_map map = opened(&default_odds, &default_limits);
        octofix_map same = opened(&default_odds, &default_limits);
        size_t done = 0;
        octofix_track(&map); /* so that edits take more memory as they go */
        to_go = passing;
        const uint32_t code = octofix_edit_all(&map, edits, POINTS, false, &done, &details);
        to_go = -1;
        EXPECT(code == OCTOFIX_MEMORY ? done < POINTS : done == POINTS, true);
        for (size_t i = 0; i < done; i++)
            EXPECT(octofix_edit(&same, &edits[i].point, edits[i].event, edits[i].number, false,
                                &details),
                   OCTOFIX_DONE);
        const size_t length = values_of(&same, wanted);
        EXPECT(values_of(&map, came), length);
        EXPECT(memcmp(came, wanted, length), 0);
        octofix_close(&same);
        octofix_close(&map);
        EXPECT(live, 0);
        if (code != OCTOFIX_MEMORY) return told;
        told++;
    }
}

/* The calls that take no memory, without any. */
static void ask_without_memory(void) {
    octofix_map map = scanned(true);
    const octofix_segment way = {points[0], points[39]};
    octofix_settings settings;
    octofix_answer answer;
    octofix_stop stop;
    octofix_key key;
    octofix_box box;
    octofix_least_tree least;
    uint64_t held;
    int32_t value;
    size_t count;
    to_go = 0;
    const long made_before = made;
    EXPECT(octofix_get(&map, &points[0], 16, &value), 0);
    EXPECT(octofix_get_all(&map, points, 1, 16, &answer, 1), 0);
    EXPECT(octofix_cast(&map, &ahead.at, &points[0], false, &key, &details), 0);
    EXPECT(octofix_cast_all(&map, &way, 1, true, &stop, 1), 0);
    EXPECT(octofix_bounds(&map, OCTOFIX_OCCUPIED_VOXELS, &box), 0);
    EXPECT(octofix_least_tree_of(&map, &least), 0);
    EXPECT(octofix_ray(RES, &way.origin, &way.end, keys, ROOM, &count, &details), 0);
    EXPECT(octofix_settings_of(&map, &settings), 0);
    EXPECT(octofix_memory(&map, &held), 0);
    EXPECT(octofix_limit(&map, &points[0], &points[0], &details), 0);
    EXPECT(octofix_window(&map, &box), 0);
    EXPECT(octofix_no_limit(&map), 0);
    EXPECT(octofix_untrack(&map), 0);
    EXPECT(made, made_before);
    to_go = -1;
    octofix_close(&map);
    EXPECT(live, 0);
}

/* Many points that lie far apart, some outside the map: they are answered the same with memory for
 * the order of their codes, without, and one by one. */
static void ask_many_points(void) {
    static octofix_point many[MANY];
    static octofix_answer with[MANY], without[MANY], alone;
    octofix_map map = scanned(true);
    for (size_t i = 0; i < MANY; i++)
        many[i] = i % 2 ? points[i / 2 % POINTS] : at(i % 7 ? 9000 : 4000000, (int64_t)i % 5000, 0);
    const long made_before = made;
    EXPECT(octofix_get_all(&map, many, MANY, 16, with, MANY), 0);
    EXPECT(made > made_before, true);
    to_go = 0;
    EXPECT(octofix_get_all(&map, many, MANY, 16, without, MANY), 0);
    EXPECT(memcmp(with, without, sizeof with), 0);
    for (size_t i = 0; i < MANY; i++) {
        EXPECT(octofix_get_all(&map, &many[i], 1, 16, &alone, 1), 0);
        EXPECT(memcmp(&with[i], &alone, sizeof alone), 0);
    }
    to_go = -1;
    octofix_close(&map);
    EXPECT(live, 0);
}

/* What is refused whatever memory there is, where there is none. */
static void refuse_without_memory(void) {
    const octofix_limits few = {16, 1 << 20};
    octofix_map map = opened(&default_odds, &few), closed = {0};
    const octofix_point low = at(0, 0, 0), high = at(11000, 11000, 11000), far = at(4000000, 0, 0);
    const octofix_point away = at(-1000000, 0, 0);
    const octofix_pose unturned = {{0, 0, 0}, 0, 0, 0, 0};
    const octofix_scan_options one_sided = {-1, 5, 0, false};
    octofix_counted counted;
    size_t count;
    EXPECT(octofix_edit(&map, &low, OCTOFIX_ADD, 850, false, &details), OCTOFIX_DONE);
    EXPECT(octofix_track(&map), OCTOFIX_DONE);
    to_go = 0;
    const long made_before = made;
    EXPECT(octofix_edit(&closed, &low, OCTOFIX_ADD, 1, false, &details), 40);
    EXPECT(octofix_edit(&map, &low, 4, 1, false, &details), 47);
    EXPECT(octofix_edit(&map, &far, OCTOFIX_ADD, 1, false, &details), 24);
    EXPECT(octofix_edit(&map, &away, OCTOFIX_ADD, 1, false, &details), 23);
    EXPECT(octofix_edit_box(&map, &high, &low, OCTOFIX_ADD, 1, &details), 26);
    EXPECT(octofix_edit_box(&map, &low, &high, OCTOFIX_ADD, 1, &details), 27);
    EXPECT(octofix_keep_box(&map, &high, &low, &details), 26);
    EXPECT(octofix_scan(&map, &unturned, &low, 1, &no_range, &counted, &details), 5);
    EXPECT(octofix_scan(&map, &ahead, &low, 1, &one_sided, &counted, &details), 4);
    EXPECT(octofix_list(&map, &low, &far, 16, blocks, ROOM, &count, &details), 24);
    EXPECT(octofix_list(&map, &low, &high, 17, blocks, ROOM, &count, &details), 25);
    EXPECT(octofix_list(&map, &high, &low, 16, blocks, ROOM, &count, &details), 26);
    EXPECT(made, made_before);
    to_go = -1;
    octofix_close(&map);
    EXPECT(live, 0);
}

/* Merges likewise. The other map knows two corners of a box that is too wide under a mark. */
static void refuse_merges_without_memory(void) {
    const octofix_limits few = {16, 100};
    const octofix_odds surer = {850, -400, -2000, 3500, 1};
    octofix_map map = opened(&default_odds, &default_limits);
    octofix_map small = opened(&default_odds, &few), other = opened(&default_odds, &default_limits);
    octofix_map unlike = opened(&surer, &default_limits), closed = {0};
    const octofix_point low = at(50, 50, 50), high = at(10050, 10050, 9950);
    EXPECT(octofix_edit(&other, &low, OCTOFIX_SET, 1, false, &details), OCTOFIX_DONE);
    EXPECT(octofix_edit(&other, &high, OCTOFIX_SET, 1, false, &details), OCTOFIX_DONE);
    EXPECT(octofix_track(&map), OCTOFIX_DONE);
    to_go = 0;
    const long made_before = made;
    EXPECT(octofix_merge(&closed, &other, OCTOFIX_FIRST, &details), 40);
    EXPECT(octofix_merge(&map, &other, 3, &details), 47);
    EXPECT(octofix_merge(&map, &unlike, OCTOFIX_FIRST, &details), 48);
    EXPECT(octofix_merge(&map, &other, OCTOFIX_FIRST, &details), 27);
    EXPECT(octofix_merge(&small, &other, OCTOFIX_FIRST, &details), 23);
    EXPECT(made, made_before);
    to_go = -1;
    octofix_close(&map);
    octofix_close(&small);
    octofix_close(&other);
    octofix_close(&unlike);
    EXPECT(live, 0);
}

static long fail_open(void) {
    octofix_map map = {0};
    long told = 0;
    for (to_go = 0;; told++) {
        const long passing = to_go;
        const uint32_t code =
            octofix_open(&map, RES, &default_odds, &default_limits, &details);
        to_go = -1;
        if (code == OCTOFIX_DONE) break;
        EXPECT(code, OCTOFIX_MEMORY);
        EXPECT(map.is_open, false);
        EXPECT(live, 0);
        to_go = passing + 1;
    }
    octofix_close(&map);
    EXPECT(live, 0);
    return told;
}

int main(void) {
    for (int i = 0; i < POINTS; i++) {
        points[i] = at(1000 + 50 * i, 70 * i, -30 * i);
        edits[i] = (octofix_point_edit){at(-80000 * i, 70000 * i, 60000 * i), OCTOFIX_SET, i};
    }
    octofix_map map = scanned(false);
    EXPECT(octofix_save(&map, file, ROOM, &file_length), OCTOFIX_DONE);
    EXPECT(octofix_snapshot(&map, snapshot, ROOM, &snapshot_length), OCTOFIX_DONE);
    octofix_close(&map);
    EXPECT(live, 0);
    made = 0;
    long told = fail_open();
    for (size_t i = 0; i < sizeof calls / sizeof *calls; i++) {
        details.first = details.second = 0;
        told += fail_each(calls[i], false);
        told += fail_each(calls[i], true);
    }
    told += fail_edits();
    ask_without_memory();
    ask_many_points();
    refuse_without_memory();
    refuse_merges_without_memory();
    printf("failing: %ld allocations, %ld calls told that memory ran out, %d failed\n", made, told,
           failed);
    return failed != 0 || told == 0;
}
