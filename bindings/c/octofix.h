/* octofix.h: a 3D occupancy map as a library for C.
 *
 * A map keeps, for each voxel of a grid, how sure it is that something is there. Scans of a range
 * sensor change it, and it tells what is occupied, free or unknown. It is an octree, as in the
 * OctoMap library (Hornung et al. 2013), and it computes in whole numbers, so that the same calls
 * give the same map on every machine.
 *
 *     octofix_map map = {0};
 *     octofix_odds odds = OCTOFIX_DEFAULT_ODDS;
 *     octofix_limits limits = OCTOFIX_DEFAULT_LIMITS;
 *     octofix_details details;
 *     uint32_t code = octofix_open(&map, 100000000, &odds, &limits, &details);    // 0.1 m
 *     ...
 *     octofix_close(&map);
 *
 * Units. A length or a coordinate is a whole number of nanometres (1 m is 1000000000), and what is
 * kept of a voxel, its value, a whole number of thousandths of log-odds: a probability p has the
 * value 1000 * ln(p / (1 - p)), so that 0.5 is 0, 0.7 is 847 and 0.4 is -405. A voxel without a
 * value is unknown; with one it is occupied where the value is at least the threshold of the map,
 * and else free.
 *
 * Voxels and blocks. The edge of a voxel is res nanometres. The key of a coordinate c is
 * floor(c / res) + 32768, from 0 to 65535, and a voxel has three keys: with key k it spans
 * (k - 32768) * res to (k - 32767) * res, its upper faces left out. What has no key lies outside
 * the map. A block of depth d is a cube of 2^(16-d) voxels along each edge; of depth 16 it is a
 * voxel, of depth 0 the whole map. Block number b on an axis has the keys from b * 2^(16-d) on.
 * A block is asked as a whole: its value is the largest one known among its voxels.
 *
 * Answers. Each call answers a code: OCTOFIX_DONE, which is 0, exactly where it did what it was
 * asked for, and else the number of what came instead (see the table of codes). A call that is
 * refused changes no voxel, but for octofix_edit_all, which tells how many of its edits it did.
 * What a call writes to besides is said with it: on another code it leaves that alone. Details are
 * written by each call that takes them, on every code: two numbers that say what is refused, by the
 * table of codes, or two zeros. With each call stand the codes that it may be refused with, without
 * their OCTOFIX_ and in the order in which they come, where nothing else is said. A call that takes
 * a handle answers CLOSED for a closed one before anything else; octofix_open alone wants one, and
 * octofix_copy for its copy.
 *
 * Ownership. A handle is a struct that the caller keeps. All zeros are a closed handle, without a
 * map. octofix_open and octofix_copy put a map in, which is on the heap and belongs to the handle,
 * and octofix_close takes it away; a map that isn't closed is lost. An open handle may be moved, as
 * a struct is copied, if the old place isn't used again: two handles must never hold one map. All
 * else that is passed stays the caller's, and nothing that is passed is kept.
 *
 * Lists. A call that lists things takes a buffer, its room (for how many things there is room), and
 * a place for the count. It tells the count, and where there is room for all it lists them, from
 * the first place on; where not, it answers OCTOFIX_SMALL_BUFFER and writes the count alone. So one
 * asks with the room at hand, or with 0, makes a buffer where it is too small, and asks again. Both
 * calls take as long, and the count stays as long as nobody changes the map.
 *
 * Threads. As with the containers of C++, several threads may ask one map at once, by the calls
 * that take `const octofix_map *`, as long as no other call on it runs beside them; such a call
 * writes nothing to the handle or the map. A map may go from thread to thread, where these are
 * synchronized, and be closed by another one than opened it. There is no lock in the library, no
 * global state, and nothing that several maps have in common. (This is seen by race detectors in
 * the checks, and isn't proved: what is proved is proved of one call at a time.)
 *
 * Cost. A call costs what is passed and answered, and at most sixteen steps down the tree for each
 * point, where nothing else is said with it; a walk goes over all nodes of the map's tree. A call
 * that changes a map takes its memory before it changes anything, octofix_edit_all that of one edit
 * after the other. Calls that list what is in a map take some for the list. Queries of points,
 * blocks and segments take none, and neither do octofix_ray and octofix_place; octofix_get_all
 * alone takes half a megabyte while it runs, for many points that lie apart, and answers the same
 * without it.
 *
 * What is proved. Of each function here (but the two that stand here whole) it is proved, for all
 * maps and all numbers: which code it answers, what it writes, and what map it leaves
 * (docs/PROMISES.md). For OCTOFIX_MEMORY that is where it may come; whether memory is out is for
 * malloc to say. No number that is passed, whatever it is, has another effect than an answer. What
 * a caller owes is checked by nothing:
 *
 * - No pointer is null, also beside a count, a length or a room of 0. (Any address of an object of
 *   this type does; one past the end of an array, too.)
 * - Each pointer leads to as many values as are said, aligned as their type is, and what a call
 *   reads (all but buffers and results) has a value. A bool is true or false.
 * - What a call writes to (handle, results, buffer, details) overlaps nothing else that is passed.
 * - A handle is all zeros, or what these calls left in it.
 * - malloc, realloc and free are those of one allocator, which aligns to 16 bytes.
 */
#ifndef OCTOFIX_H
#define OCTOFIX_H

#include <stdbool.h>
#include <stddef.h>
#include <stdint.h>

#ifdef __cplusplus
extern "C" {
#endif

/* -- types */

/* A handle: a map, or none. All zeros are none. The fields are the library's own. */
typedef struct octofix_map { void *at; bool is_open; } octofix_map;
#ifndef __cplusplus
typedef octofix_map octofix; /* the short name; in C++ it is the namespace of octofix.hpp */
#endif

typedef struct octofix_point { int64_t x, y, z; } octofix_point;      /* in nanometres */
typedef struct octofix_key { uint16_t x, y, z; } octofix_key;         /* a voxel, by its keys */
typedef struct octofix_box { octofix_key low, high; } octofix_box;    /* both corners included */
typedef struct octofix_segment { octofix_point origin, end; } octofix_segment;

/* Where a sensor stands, and the quaternion w x y z by which it is turned. Only the direction of
 * the quaternion counts, so scale a unit quaternion by 32767 and round; no turn is 1 0 0 0. */
typedef struct octofix_pose { octofix_point at; int16_t w, x, y, z; } octofix_pose;

/* What a hit adds (1 to 1000000) and a miss (-1000000 to -1), the smallest value of a voxel
 * (-1000000 to 0), the largest one (0 to 1000000), and the threshold from which on a voxel is
 * occupied (above min, at most max). */
typedef struct octofix_odds { int32_t hit, miss, min, max, thr; } octofix_odds;
#define OCTOFIX_DEFAULT_ODDS {850, -400, -2000, 3500, 0}

/* The most groups of eight nodes that a map may have (16 to 2^26), and the most voxels that the
 * beams of one scan may meet, each beam counted for itself (1 to 2^27). A group takes 72 bytes. */
typedef struct octofix_limits { uint64_t max_groups, max_cells; } octofix_limits;
#define OCTOFIX_DEFAULT_LIMITS {1 << 24, 1 << 26}

/* What a map goes by, whether it is stale, and whether a mark stands. */
typedef struct octofix_settings {
    int64_t res;
    octofix_odds odds;
    octofix_limits limits;
    bool is_stale, is_tracked;
} octofix_settings;

/* An edit of the voxel that holds the point. (octofix_edit is the call that does one.) */
typedef struct octofix_point_edit {
    octofix_point point;
    uint32_t event;
    int32_t number;
} octofix_point_edit;
typedef octofix_point_edit octofix_edit_t; /* an older name of it */

/* How a scan is to be done. A negative range is none. Where hit and miss are both 0, they are those
 * of the map; else they are as in octofix_odds. */
typedef struct octofix_scan_options {
    int64_t range;
    int32_t hit, miss;
    bool lazy;
} octofix_scan_options;

typedef struct octofix_counted { uint64_t hits, frees; } octofix_counted;     /* voxels */
typedef struct octofix_counts { uint64_t groups, nodes; } octofix_counts;
typedef struct octofix_least_tree { uint64_t groups, nodes, leaves; } octofix_least_tree;

/* A block of a depth, by its numbers among the blocks of this depth, and its value. */
typedef struct octofix_block { uint16_t depth, x, y, z; int32_t value; } octofix_block;

typedef struct octofix_answer { int32_t value; uint32_t code; } octofix_answer;
typedef struct octofix_stop { octofix_key key; uint16_t code; } octofix_stop;
typedef struct octofix_change { octofix_key key; uint16_t kind; } octofix_change;
typedef struct octofix_details { uint64_t first, second; } octofix_details;

/* A text of the library, which stays as long as the program: where it begins, and how many bytes it
 * has, the zero at its end among them. */
typedef struct octofix_text { const char *at; size_t length; } octofix_text;
#define OCTOFIX_NO_TEXT {"", 1}

/* -- numbers */

enum { /* events: what an edit does to the value of a voxel */
    OCTOFIX_ADD = 0,     /* adds the number, to 0 where it is unknown, and clamps to min and max */
    OCTOFIX_SET = 1,     /* makes it the number, clamped likewise */
    OCTOFIX_FORGET = 2,  /* makes it unknown; the number means nothing */
    OCTOFIX_LIKELY = 3   /* makes it max where it is occupied, and min where it is free; likewise */
};

enum { /* rules: which value a voxel gets that both maps of a merge know */
    OCTOFIX_FIRST = 0,    /* that of the map itself */
    OCTOFIX_GREATEST = 1, /* the greater one */
    OCTOFIX_LEAST = 2     /* the lesser one */
};

enum { /* kinds of changes since a mark */
    OCTOFIX_NEW = 0,      /* was unknown, and is known */
    OCTOFIX_LOST = 1,     /* was known, and is unknown */
    OCTOFIX_OCCUPIED = 2, /* was free, and is occupied */
    OCTOFIX_FREED = 3     /* was occupied, and is free */
};

enum { /* what octofix_bounds and octofix_leaves_of look for */
    OCTOFIX_KNOWN_VOXELS = 0,
    OCTOFIX_OCCUPIED_VOXELS = 1,
    OCTOFIX_FREE_VOXELS = 2
};

enum { /* what octofix_grid shows of a column of voxels: numbers of ROS's OccupancyGrid */
    OCTOFIX_CELL_OCCUPIED = 100, /* some voxel of it is occupied */
    OCTOFIX_CELL_FREE = 0,       /* none is, and some is free */
    OCTOFIX_CELL_UNKNOWN = -1    /* nothing is known of it */
};

/* The table of codes. 3 to 38 have the numbers that the same refusals have in a script of the
 * program (docs/FORMATS.md). In brackets: what details has, first and second; 0 where nothing is
 * named. */
enum {
    OCTOFIX_DONE = 0,                /* it was done; cast: an occupied voxel stops it */
    OCTOFIX_BAD_RESOLUTION = 3,      /* the edge of a voxel isn't from 0.1 mm to 100 m */
    OCTOFIX_BAD_MODEL = 4,           /* log-odds out of range [0 hit 1 miss 2 min 3 max 4 thr] */
    OCTOFIX_ZERO_QUATERNION = 5,     /* all four numbers of the quaternion are 0 */
    OCTOFIX_ORIGIN_OUTSIDE = 6,      /* the sensor stands outside the map */
    OCTOFIX_POINT_OUTSIDE = 7,       /* a beam ends outside the map [the first one, from 0] */
    OCTOFIX_TOO_MANY_CELLS = 8,      /* up to a beam too many voxels are met [beam, voxels] */
    OCTOFIX_TOO_MANY_BLOCKS = 9,     /* over 1000000 blocks meet the box of a list [blocks] */
    OCTOFIX_NOT_OCTOMAP = 10,        /* the file doesn't begin as a .bt file */
    OCTOFIX_FLOAT_TREE = 11,         /* it is an .ot file */
    OCTOFIX_WRONG_ID = 12,           /* its tree isn't an OcTree */
    OCTOFIX_MISSING_FIELD = 13,      /* its header lacks a line [0 id, 1 res, 2 size, 3 data] */
    OCTOFIX_BAD_FIELD = 14,          /* a line of its header has no such value [likewise] */
    OCTOFIX_HEADER_TOO_LONG = 15,    /* its header doesn't end within 65536 bytes */
    OCTOFIX_TOO_DEEP = 16,           /* voxels would have children [byte] */
    OCTOFIX_TRUNCATED = 17,          /* a file or a snapshot ends before it is whole [byte] */
    OCTOFIX_TRAILING_BYTES = 18,     /* bytes follow it [byte] */
    OCTOFIX_SIZE_MISMATCH = 19,      /* its header says another number of nodes [said, found] */
    OCTOFIX_BAD_MAGIC = 20,          /* these bytes don't begin as a snapshot */
    OCTOFIX_BAD_SNAPSHOT = 21,       /* what stands there can't stand in a snapshot [byte] */
    OCTOFIX_STALE = 22,              /* the map is stale, and the depth is below 16 */
    OCTOFIX_FULL = 23,               /* it may need more groups than the limit [groups, need] */
    OCTOFIX_OUTSIDE = 24,            /* a point lies outside the map [which of the call, from 1] */
    OCTOFIX_BAD_DEPTH = 25,          /* the depth is above 16 */
    OCTOFIX_BAD_BOX = 26,            /* on some axis low lies beyond high, by their voxels */
    OCTOFIX_WIDE_WHILE_TRACKED = 27, /* a mark stands, and a box is of over 1000000 [voxels] */
    OCTOFIX_NOT_TRACKED = 28,        /* no mark stands */
    OCTOFIX_OTHER_RESOLUTION = 35,   /* the file's isn't the map's [of the file, of the map] */
    OCTOFIX_WIDE_GRID = 38,          /* a grid would have over 2^26 columns [columns] */

    OCTOFIX_CLOSED = 40,             /* the handle has no map */
    OCTOFIX_OPEN = 41,               /* the handle has a map already */
    OCTOFIX_UNKNOWN = 42,            /* get: nothing is known; cast: an unknown voxel stops it */
    OCTOFIX_CLEAR = 43,              /* cast: nothing stops it */
    OCTOFIX_NONE = 44,               /* bounds: there is no such voxel; window: no limit stands */
    OCTOFIX_MEMORY = 45,             /* memory ran out */
    OCTOFIX_SMALL_BUFFER = 46,       /* the buffer has too little room */
    OCTOFIX_BAD_ARGUMENT = 47,       /* a number is out of its range [its index, if in an array] */
    OCTOFIX_OTHER_ODDS = 48          /* merge: the log-odds of the two maps aren't the same */
};

/* -- texts */

/* The version of the library, as "1.0.0". Never refused. *text has a value before, as
 * OCTOFIX_NO_TEXT. */
uint32_t octofix_version_text(octofix_text *text);

/* The name of a code: of those above all have one but OCTOFIX_DONE, and those from 3 to 39 have the
 * names of the program's replies, others than are answered here among them (docs/FORMATS.md). *text
 * has a value before, and keeps it where the code isn't 0. Refused: NONE. */
uint32_t octofix_code_text(uint32_t code, octofix_text *text);

#ifdef __cplusplus
#define OCTOFIX_INLINE inline
#else
#define OCTOFIX_INLINE static inline
#endif

/* The version of the library. */
OCTOFIX_INLINE const char *octofix_version(void) {
    octofix_text text = OCTOFIX_NO_TEXT;
    octofix_version_text(&text);
    return text.at;
}

/* The name of a code, as "BadResolution" of OCTOFIX_BAD_RESOLUTION; NULL where it has none. */
OCTOFIX_INLINE const char *octofix_code_name(uint32_t code) {
    octofix_text text = OCTOFIX_NO_TEXT;
    return octofix_code_text(code, &text) == OCTOFIX_DONE ? text.at : NULL;
}

/* -- maps */

/* Opens an unknown map of voxels of res nanometres. Refused, with the handle as it was: OPEN,
 * BAD_RESOLUTION, BAD_MODEL, BAD_ARGUMENT (one of the limits; it isn't said which), MEMORY. The map
 * begins with less than 4 kilobytes. */
uint32_t octofix_open(octofix_map *map, int64_t res, const octofix_odds *odds,
                      const octofix_limits *limits, octofix_details *details);

/* Opens the other handle with a copy of the map: a map of its own, equal in all that is asked of it
 * and done with it, its limits, its staleness and its mark among that. It holds as much memory, and
 * one pass over that is what it costs. Refused, with the other handle as it was: CLOSED, OPEN (the
 * other handle), MEMORY. */
uint32_t octofix_copy(const octofix_map *map, octofix_map *other);

/* Closes the map, and gives all its memory back. Refused: CLOSED, so that a second close does
 * nothing. */
uint32_t octofix_close(octofix_map *map);

/* The settings of the map, where the code is 0. Refused: CLOSED. */
uint32_t octofix_settings_of(const octofix_map *map, octofix_settings *settings);

/* The bytes that the map's tree and the notes of its mark hold now, where the code is 0.
 * Refused: CLOSED. */
uint32_t octofix_memory(const octofix_map *map, uint64_t *bytes);

/* -- edits. An event is one of OCTOFIX_ADD to OCTOFIX_LIKELY, and with the first two, OCTOFIX_ADD
 * and OCTOFIX_SET, a number is from -1000000 to 1000000, else the call is refused as BAD_ARGUMENT;
 * with the other two any number will do. A lazy edit leaves the blocks above the voxel to a later
 * octofix_refresh, which is faster for many edits: until then the map is stale, and queries at a
 * depth below 16 are refused. */

/* One edit of the voxel that holds the point.
 * Refused: CLOSED, BAD_ARGUMENT, OUTSIDE, FULL, MEMORY. */
uint32_t octofix_edit(octofix_map *map, const octofix_point *point, uint32_t event, int32_t number,
                      bool lazy, octofix_details *details);

/* One edit of each voxel of the box from the voxel of low to that of high. It costs what is known
 * there, and not the number of voxels. It isn't lazy, and leaves a stale map stale. While a mark
 * stands, a box has at most 1000000 voxels. Refused: CLOSED, BAD_ARGUMENT, OUTSIDE, BAD_BOX,
 * WIDE_WHILE_TRACKED, FULL, MEMORY. */
uint32_t octofix_edit_box(octofix_map *map, const octofix_point *low, const octofix_point *high,
                          uint32_t event, int32_t number, octofix_details *details);

/* Forgets each voxel outside of the box from the voxel of low to that of high, and changes none in
 * it. It costs what is known, and takes a group only under each block that the box cuts and that is
 * known with one value. It isn't lazy, and leaves a stale map stale. While a mark stands, the least
 * box around what is known has at most 1000000 voxels. Refused: CLOSED, OUTSIDE, BAD_BOX,
 * WIDE_WHILE_TRACKED, FULL, MEMORY. */
uint32_t octofix_keep_box(octofix_map *map, const octofix_point *low, const octofix_point *high,
                          octofix_details *details);

/* Edits, one after another, as octofix_edit does them. It stops at the first that is refused, and
 * answers its code and details; *done is how many were done before it, which is its index, and is
 * written on every code. Refused: CLOSED, else as octofix_edit refuses that one edit: BAD_ARGUMENT
 * (with the index of the edit), OUTSIDE (with 1, as its only point), FULL, MEMORY. */
uint32_t octofix_edit_all(octofix_map *map, const octofix_point_edit *edits, size_t count,
                          bool lazy, size_t *done, octofix_details *details);

/* A scan: a beam goes from the place of the sensor to each point, which stands in the sensor's own
 * frame, and is cut where it is longer than the range. The voxel where a beam ends is hit, unless
 * the beam was cut; every other voxel that a beam meets is freed, unless a beam hits it. Each hit
 * voxel takes the log-odds of a hit once, and each freed one those of a miss once. Where a limit
 * stands, voxels outside its box take nothing and aren't counted. The scan is done whole or not at
 * all. *counted is written where the code is 0. Without points no voxel changes, but the rest is
 * refused as ever, and a lazy scan makes the map stale all the same.
 * Refused: CLOSED, BAD_ARGUMENT (a coordinate of magnitude 10^16 or more, of the sensor or of a
 * point, with the index of the point, or then a range from 10^16 on; index 0 is the sensor, the
 * first point or the range), ZERO_QUATERNION, BAD_MODEL (hit or miss), ORIGIN_OUTSIDE,
 * POINT_OUTSIDE, TOO_MANY_CELLS, FULL, and MEMORY at any place after BAD_MODEL. */
uint32_t octofix_scan(octofix_map *map, const octofix_pose *pose, const octofix_point *points,
                      size_t count, const octofix_scan_options *options,
                      octofix_counted *counted, octofix_details *details);

/* The same of points that stand in the frame of the map, as a sensor at the origin sees them that
 * isn't turned: each beam ends at its point, and nothing is rounded. Refused: CLOSED, BAD_ARGUMENT
 * (a coordinate of magnitude 10^16 or more, of the origin, with index 0, or of a point), MEMORY,
 * and as octofix_scan, where a way from the origin to a point is out of range as a point is. */
uint32_t octofix_scan_in_map(octofix_map *map, const octofix_point *origin,
                             const octofix_point *points, size_t count,
                             const octofix_scan_options *options, octofix_counted *counted,
                             octofix_details *details);

/* Sets the update box: from now on scans change only voxels of the box from the voxel of low to
 * that of high. Nothing else looks at it. Refused: CLOSED, OUTSIDE, BAD_BOX. */
uint32_t octofix_limit(octofix_map *map, const octofix_point *low, const octofix_point *high,
                       octofix_details *details);

/* Takes the update box away, where one stands. Refused: CLOSED. */
uint32_t octofix_no_limit(octofix_map *map);

/* The update box, where the code is 0. Refused: CLOSED, NONE. */
uint32_t octofix_window(const octofix_map *map, octofix_box *window);

/* Makes all blocks right again after lazy edits, so that the map isn't stale. Costs a walk.
 * Refused: CLOSED. */
uint32_t octofix_refresh(octofix_map *map);

/* Gives back the groups that the values don't need, for later edits to take. Costs a walk.
 * Refused: CLOSED. */
uint32_t octofix_prune(octofix_map *map);

/* Makes each voxel unknown, ends staleness, takes the mark away, and gives memory back. Resolution,
 * log-odds, limits and update box stay. Refused: CLOSED. */
uint32_t octofix_clear(octofix_map *map);

/* Makes each occupied voxel max and each free one min, ends staleness, and prunes. Costs a walk.
 * Refused: CLOSED. */
uint32_t octofix_max_likelihood(octofix_map *map);

/* Merges another map of the same resolution and log-odds into this one: each voxel that one of them
 * knows gets its value, and one that both know the value that the rule takes. All else of the map
 * stays, and so does each voxel of the other; both are pruned, and a stale map stays stale. Whether
 * the other one is stale, or what limits it has, doesn't matter. The two handles must not be one.
 * While a mark stands, the least box around what the other map knows has at most 1000000 voxels.
 * Full means that the blocks that aren't of one value in one of the maps are more than the groups
 * that the map may have. Costs a walk. Refused: CLOSED (either handle), BAD_ARGUMENT (the rule),
 * OTHER_RESOLUTION (the other map's first), OTHER_ODDS, WIDE_WHILE_TRACKED, FULL, MEMORY. */
uint32_t octofix_merge(octofix_map *map, octofix_map *other, uint32_t rule,
                       octofix_details *details);

/* octofix_merge of the other map moved by dx, dy and dz voxels: voxel k takes what the other map
 * has at k - (dx, dy, dz). The other map stays as it is. The least box around what it knows has to
 * stay in the map; OUTSIDE tells of its low corner [1] or else of its high one [2]. FULL tells of 0
 * groups where the moved map alone needs more than the map may have. Costs a walk, and memory for
 * the moved map. The two handles must not be one. Refused: as octofix_merge, and OUTSIDE before
 * WIDE_WHILE_TRACKED. */
uint32_t octofix_merge_shifted(octofix_map *map, const octofix_map *other, uint32_t rule,
                               octofix_details *details, int32_t dx, int32_t dy, int32_t dz);

/* Prunes the map, and counts the groups and nodes of the least tree that has these values, where
 * the code is 0. Costs a walk. Refused: CLOSED. */
uint32_t octofix_counts_of(octofix_map *map, octofix_counts *counts);

/* -- queries */

/* The groups, nodes and leaves of the least tree that has the map's values, where the code is 0:
 * the numbers of octofix_counts_of, and how many blocks octofix_leaves lists. The map stays as it
 * is, pruned or not. Answers on a stale map too. Costs a walk, and no memory. Refused: CLOSED. */
uint32_t octofix_least_tree_of(const octofix_map *map, octofix_least_tree *least);

/* The value of the block of this depth that holds the point; depth 16 asks for the voxel. *value is
 * written where the code is 0. Otherwise: CLOSED, OUTSIDE, BAD_DEPTH, STALE, UNKNOWN. */
uint32_t octofix_get(const octofix_map *map, const octofix_point *point, uint32_t depth,
                     int32_t *value);

/* octofix_get of many points. There are as many answers as points, each with the code that
 * octofix_get has for it (DONE, OUTSIDE, BAD_DEPTH, STALE or UNKNOWN) and, where that is 0, the
 * value, else 0. Refused as a whole, with nothing written: CLOSED, SMALL_BUFFER (where room is
 * below count), and for nothing else: not for a depth, which is a matter of each point. */
uint32_t octofix_get_all(const octofix_map *map, const octofix_point *points, size_t count,
                         uint32_t depth, octofix_answer *answers, size_t room);

/* Which voxel stops the straight way from origin to end first, those of both points among its
 * voxels: an occupied one (DONE), or, unless unknown ones are ignored, an unknown one (UNKNOWN).
 * *key is this voxel on these two codes. Otherwise: CLOSED, OUTSIDE, CLEAR where none stops it.
 * Answers on a stale map too. Costs a step for each voxel on the way. */
uint32_t octofix_cast(const octofix_map *map, const octofix_point *origin, const octofix_point *end,
                      bool ignore_unknown, octofix_key *key, octofix_details *details);

/* octofix_cast of many segments. There are as many stops as segments, each with its code (DONE,
 * UNKNOWN, CLEAR or OUTSIDE) and, on DONE and UNKNOWN, its key, else the key 0 0 0. Refused as a
 * whole: CLOSED, SMALL_BUFFER. */
uint32_t octofix_cast_all(const octofix_map *map, const octofix_segment *segments, size_t count,
                          bool ignore_unknown, octofix_stop *stops, size_t room);

/* The known blocks of a depth that meet the box from the voxel of low to that of high, with their
 * values, by ascending x, then y, then z. At most 1000000 blocks, unknown ones among them, may meet
 * the box. *count is written on DONE and SMALL_BUFFER. Refused: CLOSED, OUTSIDE, BAD_DEPTH,
 * BAD_BOX, STALE, TOO_MANY_BLOCKS, MEMORY, SMALL_BUFFER. */
uint32_t octofix_list(const octofix_map *map, const octofix_point *low, const octofix_point *high,
                      uint32_t depth, octofix_block *blocks, size_t room, size_t *count,
                      octofix_details *details);

/* All that is known: the largest blocks whose voxels all have one value, each known voxel in one of
 * them. They come in Morton order, which is that of a walk down the tree: by their first voxels,
 * compared by the highest bit in which two keys differ, z before y before x. Answers on a stale map
 * too. Costs a walk. *count is written on DONE and SMALL_BUFFER.
 * Refused: CLOSED, MEMORY, SMALL_BUFFER. */
uint32_t octofix_leaves(const octofix_map *map, octofix_block *blocks, size_t room, size_t *count);

/* Those of these blocks that meet the box from the voxel of low to that of high, each as a whole.
 * Costs a walk over the box alone. *count is written on DONE and SMALL_BUFFER.
 * Refused: CLOSED, OUTSIDE, BAD_BOX, MEMORY, SMALL_BUFFER. */
uint32_t octofix_leaves_in(const octofix_map *map, const octofix_point *low,
                           const octofix_point *high, octofix_block *blocks, size_t room,
                           size_t *count, octofix_details *details);

/* Those of the blocks of octofix_leaves whose voxels are sought (OCTOFIX_KNOWN_VOXELS,
 * OCTOFIX_OCCUPIED_VOXELS or OCTOFIX_FREE_VOXELS), in the same order. For occupied ones of a map
 * that isn't stale it costs a walk over the blocks that hold some, else one over all. *count is
 * written on DONE and SMALL_BUFFER. Refused: CLOSED, BAD_ARGUMENT, MEMORY, SMALL_BUFFER. */
uint32_t octofix_leaves_of(const octofix_map *map, uint32_t sought, octofix_block *blocks,
                           size_t room, size_t *count);

/* Those of these blocks that meet the box from the voxel of low to that of high, each as a whole.
 * *count is written on DONE and SMALL_BUFFER.
 * Refused: CLOSED, BAD_ARGUMENT, OUTSIDE, BAD_BOX, MEMORY, SMALL_BUFFER. */
uint32_t octofix_leaves_of_in(const octofix_map *map, uint32_t sought, const octofix_point *low,
                              const octofix_point *high, octofix_block *blocks, size_t room,
                              size_t *count, octofix_details *details);

/* The grid of a height band: what each column of voxels shows of the box from the voxel of low to
 * that of high, as OCTOFIX_CELL_OCCUPIED, OCTOFIX_CELL_FREE or OCTOFIX_CELL_UNKNOWN. The columns of
 * the lowest y come first, by ascending x, so that the cell of the keys x and y is
 * cells[(y - y_low) * width + (x - x_low)], where width is x_high - x_low + 1: the order and the
 * numbers of the data of a nav_msgs/OccupancyGrid, whose origin is the lowest corner of the voxel
 * of low. *count is how many columns there are, at most 2^26, and is written on DONE and
 * SMALL_BUFFER, which costs nothing more. Takes no memory, and answers on a stale map too. Costs a
 * step down the tree for each block that a row of columns meets.
 * Refused: CLOSED, OUTSIDE, BAD_BOX, WIDE_GRID, SMALL_BUFFER. */
uint32_t octofix_grid(const octofix_map *map, const octofix_point *low, const octofix_point *high,
                      int8_t *cells, size_t room, size_t *count, octofix_details *details);

/* The smallest box that holds all voxels that are sought (OCTOFIX_KNOWN_VOXELS,
 * OCTOFIX_OCCUPIED_VOXELS or OCTOFIX_FREE_VOXELS), where the code is 0. Costs a walk.
 * Otherwise: CLOSED, BAD_ARGUMENT, NONE. */
uint32_t octofix_bounds(const octofix_map *map, uint32_t sought, octofix_box *corners);

/* Without a map: the keys of all voxels of res nanometres that the straight way from origin to end
 * meets, in their order, those of both points among them. Where it passes exactly through an edge
 * or a corner it goes on diagonally. *count is written on DONE and SMALL_BUFFER.
 * Refused: BAD_RESOLUTION, OUTSIDE, SMALL_BUFFER. */
uint32_t octofix_ray(int64_t res, const octofix_point *origin, const octofix_point *end,
                     octofix_key *keys, size_t room, size_t *count, octofix_details *details);

/* Without a map: where points of a sensor's frame lie in that of the map. Each is turned by the
 * quaternion, rounded once to whole nanometres, and moved, as octofix_scan does it. There are as
 * many places as points, which begin elsewhere. Refused before anything is written: BAD_ARGUMENT (a
 * coordinate of magnitude 10^16 or more, of the sensor, with index 0, or of a point, with its
 * index), ZERO_QUATERNION, SMALL_BUFFER. */
uint32_t octofix_place(const octofix_pose *pose, const octofix_point *points, size_t count,
                       octofix_point *places, size_t room, octofix_details *details);

/* -- changes since a mark */

/* Sets the mark at this moment, in place of an earlier one. While it stands, an edit takes some
 * memory for each voxel that it touches. octofix_clear, octofix_load and octofix_restore take it
 * away. Refused: CLOSED. */
uint32_t octofix_track(octofix_map *map);

/* Takes the mark away, where one stands. Refused: CLOSED. */
uint32_t octofix_untrack(octofix_map *map);

/* The voxels that have another class (unknown, free or occupied) than at the mark, by ascending x,
 * then y, then z. The mark stays. Costs what was edited since the mark, and answers on a stale map
 * too. *count is written on DONE and SMALL_BUFFER.
 * Refused: CLOSED, NOT_TRACKED, MEMORY, SMALL_BUFFER. */
uint32_t octofix_changes(const octofix_map *map, octofix_change *changed, size_t room,
                         size_t *count);

/* -- files, as bytes. A .bt file has the classes of the voxels, as the OctoMap library reads and
 * writes it. A snapshot has their values, the log-odds and the update box. Neither has limits,
 * mark or staleness. Both are written in one way: equal maps have equal bytes. */

/* The .bt file of the map. Costs a walk. *length is written on DONE and SMALL_BUFFER.
 * Refused: CLOSED, SMALL_BUFFER, MEMORY. */
uint32_t octofix_save(const octofix_map *map, uint8_t *bytes, size_t room, size_t *length);

/* Makes the map that of a .bt file: its occupied voxels get the value max, its free ones min, and
 * all others are unknown. Ends staleness, takes the mark away, and prunes. Refused, with the map as
 * it was: CLOSED, NOT_OCTOMAP to SIZE_MISMATCH (the first fault, by docs/FORMATS.md),
 * OTHER_RESOLUTION, FULL, and MEMORY at any place after CLOSED. */
uint32_t octofix_load(octofix_map *map, const uint8_t *bytes, size_t length,
                      octofix_details *details);

/* The snapshot of the map. Costs a walk. *length is written on DONE and SMALL_BUFFER.
 * Refused: CLOSED, SMALL_BUFFER, MEMORY. */
uint32_t octofix_snapshot(const octofix_map *map, uint8_t *bytes, size_t room, size_t *length);

/* Makes the map that of a snapshot: its values, its log-odds and its update box (a snapshot of
 * version 1 has values alone). Ends staleness, takes the mark away, and prunes. Refused, with
 * the map as it was: CLOSED, TRUNCATED, TRAILING_BYTES, BAD_MAGIC or BAD_SNAPSHOT (the first fault,
 * by docs/FORMATS.md), OTHER_RESOLUTION, FULL, MEMORY. */
uint32_t octofix_restore(octofix_map *map, const uint8_t *bytes, size_t length,
                         octofix_details *details);

#ifdef __cplusplus
}
#endif

#endif
