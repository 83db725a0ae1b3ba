/* Four threads ask one map at once, by every query, and each gets the answers that one thread alone
 * gets. Then the map goes to another thread, which closes it. To be run under race detectors. */
#include "expect.h"

#include <pthread.h>

enum { THREADS = 4, ASKED = 2000, ROOM = 1 << 15 };

static octofix_point asked[ASKED];

/* What a thread has room for. */
struct room {
    const octofix_map *map;
    octofix_answer answers[ASKED];
    octofix_block blocks[ROOM];
    octofix_change changes[ROOM];
    int8_t cells[ROOM];
    uint8_t bytes[1 << 19];
    uint64_t sum;
};

static uint64_t mixed(uint64_t sum, uint64_t number) { return sum * 31 + number; }

static uint64_t mixed_bytes(uint64_t sum, const void *bytes, size_t length) {
    for (size_t i = 0; i < length; i++) sum = mixed(sum, ((const uint8_t *)bytes)[i]);
    return sum;
}

static uint64_t ask_points(const struct room *room) {
    static const octofix_point origin = {0, 0, 0};
    uint64_t sum = 0;
    for (int i = 0; i < ASKED; i++) {
        octofix_details details;
        octofix_segment way = {origin, asked[i]};
        octofix_key key = {0, 0, 0};
        octofix_stop stop;
        int32_t value = 0;
        sum = mixed(sum, octofix_get(room->map, &asked[i], 10 + i % 7, &value));
        sum = mixed(sum, (uint64_t)value);
        sum = mixed(sum, octofix_cast(room->map, &origin, &asked[i], i % 2 == 0, &key, &details));
        octofix_cast_all(room->map, &way, 1, i % 2 == 0, &stop, 1);
        sum = mixed(mixed(sum, key.x), stop.key.z);
    }
    return sum;
}

static uint64_t ask_lists(struct room *room) {
    const octofix_point low = at(-900, -900, -900), high = at(900, 900, 900);
    octofix_block *blocks = room->blocks;
    octofix_details details;
    size_t count = 0;
    uint64_t sum = octofix_list(room->map, &low, &high, 15, blocks, ROOM, &count, &details);
    sum = mixed_bytes(sum, blocks, count * sizeof *blocks);
    sum = mixed(sum, octofix_leaves_in(room->map, &low, &high, blocks, ROOM, &count, &details));
    sum = mixed_bytes(sum, blocks, count * sizeof *blocks);
    sum = mixed(sum, octofix_leaves(room->map, blocks, ROOM, &count));
    sum = mixed_bytes(sum, blocks, count * sizeof *blocks);
    sum = mixed(sum, octofix_leaves_of(room->map, OCTOFIX_OCCUPIED_VOXELS, blocks, ROOM, &count));
    sum = mixed_bytes(sum, blocks, count * sizeof *blocks);
    sum = mixed(sum, octofix_grid(room->map, &low, &high, room->cells, ROOM, &count, &details));
    sum = mixed_bytes(sum, room->cells, count);
    sum = mixed(sum, octofix_changes(room->map, room->changes, ROOM, &count));
    sum = mixed_bytes(sum, room->changes, count * sizeof *room->changes);
    sum = mixed(sum, octofix_get_all(room->map, asked, ASKED, 16, room->answers, ASKED));
    return mixed_bytes(sum, room->answers, sizeof room->answers);
}

static uint64_t ask_whole(struct room *room) {
    octofix_box box = {{0, 0, 0}, {0, 0, 0}};
    octofix_settings settings = {0};
    uint64_t held = 0;
    size_t length = 0;
    uint64_t sum = octofix_bounds(room->map, OCTOFIX_OCCUPIED_VOXELS, &box);
    sum = mixed(mixed(sum, octofix_settings_of(room->map, &settings)), (uint64_t)settings.res);
    sum = mixed(mixed(sum, octofix_memory(room->map, &held)), held);
    sum = mixed(mixed(sum, octofix_window(room->map, &box)), box.high.x);
    sum = mixed(sum, octofix_save(room->map, room->bytes, sizeof room->bytes, &length));
    sum = mixed_bytes(sum, room->bytes, length);
    sum = mixed(sum, octofix_snapshot(room->map, room->bytes, sizeof room->bytes, &length));
    return mixed_bytes(sum, room->bytes, length);
}

static void *ask(void *it) {
    struct room *room = it;
    room->sum = mixed(mixed(ask_points(room), ask_lists(room)), ask_whole(room));
    return NULL;
}

static void *close_it(void *handle) {
    octofix_close(handle);
    return NULL;
}

static void draw_points(void) {
    uint32_t draw = 1;
    for (int i = 0; i < ASKED; i++) {
        int64_t *const axes[] = {&asked[i].x, &asked[i].y, &asked[i].z};
        for (int axis = 0; axis < 3; axis++) {
            draw = draw * 1664525 + 1013904223;
            *axes[axis] = ((int64_t)(draw >> 8) % 4001 - 2000) * MM;
        }
    }
}

int main(void) {
    static struct room rooms[THREADS + 1];
    octofix_map map = opened(&default_odds, &default_limits);
    octofix_counted counted;
    octofix_details details;
    draw_points();
    EXPECT(octofix_track(&map), OCTOFIX_DONE);
    EXPECT(octofix_scan(&map, &ahead, asked, 200, &no_range, &counted, &details), OCTOFIX_DONE);
    for (int i = 0; i <= THREADS; i++) rooms[i].map = &map;
    ask(&rooms[THREADS]);
    pthread_t threads[THREADS];
    for (int i = 0; i < THREADS; i++) EXPECT(pthread_create(&threads[i], NULL, ask, &rooms[i]), 0);
    for (int i = 0; i < THREADS; i++) {
        pthread_join(threads[i], NULL);
        EXPECT(rooms[i].sum, rooms[THREADS].sum);
    }
    octofix_map moved = map;
    pthread_create(&threads[0], NULL, close_it, &moved);
    pthread_join(threads[0], NULL);
    EXPECT(moved.is_open, false);
    printf("threads: %d failed\n", failed);
    return failed != 0;
}
