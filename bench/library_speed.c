/* What calls of the library take: see ../library_speed.sh.
 *
 *     speed scans FILE     does the scans of a script, as a session does, and prints its replies
 *     speed refused FILE   the same, but each scan is refused for its quaternion
 *     speed times FILE     does the scans, and prints what queries and an empty map take
 */
#include "octofix.h"

#include <inttypes.h>
#include <malloc.h>
#include <math.h>
#include <stdio.h>
#include <stdlib.h>
#include <string.h>
#include <time.h>

enum { RES = 50000000, POINTS = 100000, ASKED = 1000000 };

static octofix_details details;
static octofix_point points[POINTS], asked[ASKED];
static octofix_answer answers[ASKED];

static octofix_map opened(void) {
    const octofix_odds odds = OCTOFIX_DEFAULT_ODDS;
    const octofix_limits limits = OCTOFIX_DEFAULT_LIMITS;
    octofix_map map = {0};
    if (octofix_open(&map, RES, &odds, &limits, &details) != OCTOFIX_DONE) exit(1);
    return map;
}

static octofix_point metres(double x, double y, double z) {
    const octofix_point point = {llround(x * 1e9), llround(y * 1e9), llround(z * 1e9)};
    return point;
}

/* Does one scan after another, and prints the replies of the session. */
static void do_scans(octofix_map *map, const char *file, int is_refused) {
    FILE *script = fopen(file, "r");
    char line[256];
    octofix_pose pose = {{0, 0, 0}, 1, 0, 0, 0};
    octofix_scan_options options = {-1, 0, 0, false};
    octofix_counted counted;
    size_t count = 0;
    double x, y, z, range;
    int turn;
    if (!script) exit(1);
    while (fgets(line, sizeof line, script)) {
        if (sscanf(line, "scan %lf %lf %lf 1 0 0 %d %lf", &x, &y, &z, &turn, &range) == 5) {
            pose.at = metres(x, y, z);
            pose.w = is_refused ? 0 : 1;
            pose.z = (int16_t)(is_refused ? 0 : turn);
            options.range = llround(range * 1e9);
            count = 0;
        } else if (sscanf(line, "p %lf %lf %lf", &x, &y, &z) == 3 && count < POINTS) {
            points[count++] = metres(x, y, z);
        } else if (strcmp(line, "end\n") == 0) {
            const uint32_t code =
                octofix_scan(map, &pose, points, count, &options, &counted, &details);
            if (code == OCTOFIX_DONE)
                printf("ok hits %" PRIu64 " frees %" PRIu64 "\n", counted.hits, counted.frees);
            else
                printf("refused %" PRIu32 "\n", code);
        }
    }
    fclose(script);
}

/* The seconds that this process has run. */
static double now(void) {
    struct timespec time;
    clock_gettime(CLOCK_PROCESS_CPUTIME_ID, &time);
    return (double)time.tv_sec + 1e-9 * (double)time.tv_nsec;
}

/* The least seconds of seven runs. */
static double least(void (*run)(octofix_map *), octofix_map *map) {
    double best = 1e9;
    for (int i = 0; i < 7; i++) {
        const double start = now();
        run(map);
        const double took = now() - start;
        best = took < best ? took : best;
    }
    return best;
}

/* At depth 0 nothing is walked, so that this is what a call takes beside the walk. */
static void get_whole(octofix_map *map) {
    int32_t value, sum = 0;
    for (size_t i = 0; i < ASKED; i++)
        if (octofix_get(map, &asked[i], 0, &value) == OCTOFIX_DONE) sum += value != 0;
    if (sum != ASKED) exit(1);
}

static void get_all(octofix_map *map) {
    if (octofix_get_all(map, asked, ASKED, 16, answers, ASKED) != OCTOFIX_DONE) exit(1);
}

static octofix_block *blocks;
static size_t room;

static void list_leaves(octofix_map *map) {
    size_t count;
    if (octofix_leaves(map, blocks, room, &count) != OCTOFIX_DONE) exit(1);
}

static void copy(octofix_map *map) {
    octofix_map other = {0};
    if (octofix_copy(map, &other) != OCTOFIX_DONE) exit(1);
    octofix_close(&other);
}

static void say_times(octofix_map *map) {
    uint32_t draw = 1;
    for (size_t i = 0; i < ASKED; i++) {
        double place[3];
        for (int axis = 0; axis < 3; axis++) {
            draw = draw * 1664525 + 1013904223;
            place[axis] = 10.0 * (draw >> 8) / 16777216.0 - 5;
        }
        asked[i] = metres(place[0], place[1], place[2]);
    }
    octofix_counts counts;
    octofix_block none;
    octofix_counts_of(map, &counts);
    octofix_leaves(map, &none, 0, &room);
    blocks = malloc((room + 1) * sizeof *blocks);
    if (!blocks) exit(1);
    printf("get %.1f\n", 1e9 * least(get_whole, map) / ASKED);
    printf("get_all %.1f\n", 1e9 * least(get_all, map) / ASKED);
    printf("leaves %.2f\n", 1e3 * least(list_leaves, map) * 500000 / (double)counts.nodes);
    printf("copy %.2f\n", 1e3 * least(copy, map) * 500000 / (double)counts.nodes);
    printf("nodes %" PRIu64 " leaves %zu\n", counts.nodes, room);
    free(blocks);
}

static void say_empty(void) {
    const size_t before = mallinfo2().uordblks;
    octofix_map map = opened();
    printf("empty %zu\n", mallinfo2().uordblks - before);
    octofix_close(&map);
}

int main(int count, char **words) {
    if (count != 3) return 2;
    const int is_timed = strcmp(words[1], "times") == 0;
    if (is_timed) say_empty();
    octofix_map map = opened();
    do_scans(&map, words[2], strcmp(words[1], "refused") == 0);
    if (is_timed) say_times(&map);
    octofix_close(&map);
    return 0;
}
