/* What the tests in C have in common: each expectation that isn't met is said, and counted. */
#ifndef EXPECT_H
#define EXPECT_H

#include "octofix.h"

#include <inttypes.h>
#include <stdio.h>
#include <stdlib.h>
#include <string.h>

static int failed;

static void expect_number(int line, const char *what, uint64_t came, uint64_t wanted) {
    if (came == wanted) return;
    failed++;
    printf("line %d: %s is %" PRIu64 ", and not %" PRIu64 "\n", line, what, came, wanted);
}

#define EXPECT(call, wanted) expect_number(__LINE__, #call, (uint64_t)(call), (uint64_t)(wanted))

/* A call whose last argument is &details, its code, and what the details then have. */
#define EXPECT_DETAILS(call, wanted, one, two)                                    \
    do {                                                                          \
        details.first = details.second = 4711;                                    \
        EXPECT(call, wanted);                                                     \
        expect_number(__LINE__, "details.first of " #call, details.first, one);   \
        expect_number(__LINE__, "details.second of " #call, details.second, two); \
    } while (0)

enum { MM = 1000000, RES = 100 * MM };

static const octofix_odds default_odds = OCTOFIX_DEFAULT_ODDS;
static const octofix_limits default_limits = OCTOFIX_DEFAULT_LIMITS;
static const octofix_scan_options no_range = {-1, 0, 0, false};
static const octofix_pose ahead = {{0, 0, 0}, 1, 0, 0, 0};

static inline octofix_point at(int64_t x, int64_t y, int64_t z) {
    const octofix_point point = {x * MM, y * MM, z * MM};
    return point;
}

static inline octofix_map opened(const octofix_odds *odds, const octofix_limits *limits) {
    octofix_map map = {0};
    octofix_details details;
    if (octofix_open(&map, RES, odds, limits, &details) != OCTOFIX_DONE) {
        printf("a map can't be opened\n");
        exit(1);
    }
    return map;
}

#endif
