/* cuts.h: regions of a map that have no voxel in common and leave out none, cut where beams go, and
 * which beams come near to which region. It is C99 and C++17, takes no memory, and is the same for
 * octofix_mapper.hpp and for the Python package, which compiles it.
 *
 * Lengths are whole nanometres. Voxels are counted from the origin, on each axis from -32768 to
 * 32767. A beam goes from its sensor along the axes of the map; a range below 0 cuts none.
 */
#ifndef OCTOFIX_CUTS_H
#define OCTOFIX_CUTS_H

#include "octofix.h"

#include <math.h>
#include <stdbool.h>
#include <stddef.h>
#include <stdint.h>

enum {
    OCTOFIX_LOWEST = -32768,
    OCTOFIX_HIGHEST = 32767,
    OCTOFIX_VOXELS = 65536, /* of an axis */
    OCTOFIX_PLACES = 16     /* of a beam, at which it is looked which voxels are there */
};

/* The voxels from low to high, both included. */
typedef struct {
    int32_t low[3], high[3];
} octofix_region;

static inline octofix_region octofix_everywhere(void) {
    octofix_region all;
    for (int axis = 0; axis < 3; axis++)
        all.low[axis] = OCTOFIX_LOWEST, all.high[axis] = OCTOFIX_HIGHEST;
    return all;
}

static inline uint64_t octofix_size_of(const octofix_region *it) {
    uint64_t size = 1;
    for (int axis = 0; axis < 3; axis++)
        size *= (uint64_t)(it->high[axis] - it->low[axis]) + 1;
    return size;
}

/* A node of a tree of cuts. Its nodes stand in a row, each before those below it. */
enum { OCTOFIX_A_REGION = -1, OCTOFIX_NOT_ASKED = -2 };
typedef struct {
    int32_t axis;  /* of a cut; or else one of the above */
    int32_t at;    /* the first voxel behind the cut; which region it is, of those asked for */
    int32_t after; /* the node of what lies behind the cut; before it lies that of the next node */
} octofix_cut;

static inline int64_t octofix_floor(int64_t number, int64_t by) {
    return number / by - (number % by < 0);
}

/* The nearest voxel that there is. */
static inline int16_t octofix_voxel(int64_t number) {
    if (number < OCTOFIX_LOWEST) return OCTOFIX_LOWEST;
    return number > OCTOFIX_HIGHEST ? (int16_t)OCTOFIX_HIGHEST : (int16_t)number;
}

static inline double octofix_length(octofix_point beam) {
    const double x = (double)beam.x, y = (double)beam.y, z = (double)beam.z;
    return sqrt(x * x + y * y + z * z);
}

/* The lengths of a beam on the three axes together. */
static inline double octofix_axes(octofix_point beam) {
    return fabs((double)beam.x) + fabs((double)beam.y) + fabs((double)beam.z);
}

/* A beam that is no longer than the range. */
static inline octofix_point octofix_cut_off(octofix_point beam, int64_t range) {
    if (range < 0) return beam;
    const double length = octofix_length(beam);
    const double part = (double)range / (length > 1 ? length : 1);
    if (part >= 1) return beam;
    beam.x = llrint((double)beam.x * part);
    beam.y = llrint((double)beam.y * part);
    beam.z = llrint((double)beam.z * part);
    return beam;
}

/* -- which scans need no judge */

/* Whether no map with these limits, but one that is full, refuses beams of a sensor that stands
 * where it may: as far as the ball around it tells that none of them leaves, and the sum of their
 * lengths. Each beam meets a voxel, and one more for each face between its ends. If the sensor is
 * turned beams are those of its own frame, which may go anywhere. */
static inline bool octofix_is_safe(octofix_point origin, bool is_turned,
                                   const octofix_point *beams, size_t count, int64_t edge,
                                   int64_t range, uint64_t max_cells) {
    const double most = range < 0 ? 1e15 : (double)range;
    double longest = 0, sum = 0;
    uint64_t more = 0;
    for (size_t i = 0; i < count; i++) {
        const octofix_point it = beams[i];
        const double length = octofix_length(it);
        /* (three numbers together are below 1.7321 times the length of their vector) */
        const double axes = is_turned ? 1.7321 * length : octofix_axes(it);
        const bool is_cut = length > most;
        longest = length > longest ? length : longest;
        sum += is_cut ? axes * (most / length) : axes;
        /* (what is rounded may meet one face more on each axis) */
        more += is_turned || is_cut ? 7 : (uint64_t)(1 + (it.x != 0) + (it.y != 0) + (it.z != 0));
    }
    if (!(longest < 1e15) || sum / (double)edge + (double)more > (double)max_cells) return false;
    const double room = (double)(OCTOFIX_HIGHEST - 1) * (double)edge;
    const double reach = longest < most ? longest : most;
    return fabs((double)origin.x) + reach < room && fabs((double)origin.y) + reach < room &&
           fabs((double)origin.z) + reach < room;
}

/* -- where beams go */

/* A beam at places from its beginning to its end: the voxels there, on each axis, what it costs to
 * change one in the map, shared by the beams that meet it, and how many voxels it stands for. */
typedef struct {
    int16_t voxels[3][OCTOFIX_PLACES], changes[OCTOFIX_PLACES];
    uint64_t weight;
} octofix_sample;

/* What is done for a voxel that a beam meets where all of the beam lies in a region, where a part
 * of it does, once for such a part, and for a voxel that is changed in the map. (As has been
 * measured, of the last in time, since the memory of a map is waited for.) */
enum { OCTOFIX_MET = 16, OCTOFIX_MET_IN_PART = 19, OCTOFIX_PARTED = 26, OCTOFIX_CHANGED = 100 };

/* The number of the beam that is looked at as the one of this number. (Steps of the golden ratio
 * keep no time with the rings of a lidar.) */
static inline size_t octofix_picked(size_t number, size_t count) {
    return number * ((size_t)(0.618 * (double)count) | 1) % count;
}

/* The share of all ways that beams take, as seen on a cube around the sensor of 96 squares. */
static inline double octofix_share_of_ways(const octofix_point *beams, size_t count) {
    bool is_seen[3][2][4][4] = {{{{false}}}};
    int seen = 0;
    for (size_t i = 0; i < count; i++) {
        const double way[3] = {(double)beams[i].x, (double)beams[i].y, (double)beams[i].z};
        int axis = fabs(way[1]) > fabs(way[0]);
        if (fabs(way[2]) > fabs(way[axis])) axis = 2;
        if (way[axis] == 0) continue;
        const double far = fabs(way[axis]) * 1.0001;
        const int row = (int)(2 * (1 + way[(axis + 1) % 3] / far));
        const int column = (int)(2 * (1 + way[(axis + 2) % 3] / far));
        bool *it = &is_seen[axis][way[axis] > 0][row][column];
        seen += !*it;
        *it = true;
    }
    return (seen ? seen : 1) / 96.0;
}

/* What a change costs a beam so far from the sensor, where so many meet a voxel at a nanometre. */
static inline int16_t octofix_changes_at(double far, double meet) {
    return (int16_t)((double)OCTOFIX_CHANGED * far * far / (far * far + meet));
}

/* Puts the samples of a scan that stands for so many into a row: of beams that are looked at, in
 * place of all. */
static inline void octofix_add_samples(octofix_sample *to, octofix_point origin,
                                       const octofix_point *looked_at, size_t number, size_t count,
                                       int64_t edge, int64_t range, uint64_t stands_for) {
    const int64_t from[3] = {origin.x, origin.y, origin.z};
    /* (a voxel is seen from each side as 1.5 of its face, and a ball is 12.57 wide) */
    const double ways = 12.57 * octofix_share_of_ways(looked_at, number);
    const double meet = 1.5 * (double)count * (double)edge * (double)edge / ways;
    for (size_t i = 0; i < number; i++, to++) {
        const octofix_point beam = octofix_cut_off(looked_at[i], range);
        const int64_t way[3] = {beam.x, beam.y, beam.z};
        for (int place = 0; place < OCTOFIX_PLACES; place++) {
            for (int axis = 0; axis < 3; axis++) {
                const int64_t far = octofix_floor(way[axis] * place, OCTOFIX_PLACES - 1);
                to->voxels[axis][place] = octofix_voxel(octofix_floor(from[axis] + far, edge));
            }
            const double far = octofix_length(beam) * place / (OCTOFIX_PLACES - 1);
            to->changes[place] = octofix_changes_at(far, meet);
        }
        /* (no map has more) */
        const int64_t most = 3 * (int64_t)OCTOFIX_VOXELS;
        const double voxels = octofix_axes(beam) / (double)edge + 1;
        to->weight = (uint64_t)(voxels < (double)most ? voxels : (double)most) *
                     (stands_for * count) / number;
    }
}

/* -- cuts */

/* A beam in a region: the places of it that are there, a bit each, how many, and the voxels at
 * them; those of the others are behind each cut. */
typedef struct {
    int16_t voxels[3][OCTOFIX_PLACES], changes[OCTOFIX_PLACES];
    uint64_t weight;
    uint32_t bits;
    int32_t places, changes_in_all;
} octofix_inside;

/* What it takes to cut, and what comes out. */
typedef struct {
    const octofix_sample *samples;
    size_t count;              /* of samples */
    octofix_inside *inside;    /* room for as many */
    double *sums;              /* room for OCTOFIX_VOXELS */
    int64_t only;              /* the number of the one region that is asked for; all are below 0 */
    octofix_cut *cuts;         /* room for twice as many as regions */
    octofix_region *regions;   /* room for those that are asked for */
    int32_t cuts_made, regions_made;
    size_t inside_now;
} octofix_cutting;

typedef struct {
    int axis;
    int32_t at;
} octofix_place_to_cut;

/* What is done for a beam with so many places in a region, beside changes. */
static inline uint64_t octofix_work(int32_t places) {
    const uint64_t count = (uint64_t)places;
    if (places == OCTOFIX_PLACES) return OCTOFIX_MET * count;
    return places == 0 ? 0 : OCTOFIX_MET_IN_PART * count + OCTOFIX_PARTED;
}

/* Looks at the beams that have a place in a region. */
static inline void octofix_look_inside(octofix_cutting *it, const octofix_region *within) {
    it->inside_now = 0;
    for (size_t i = 0; i < it->count; i++) {
        const octofix_sample *beam = &it->samples[i];
        octofix_inside *to = &it->inside[it->inside_now];
        to->weight = beam->weight, to->bits = 0, to->places = to->changes_in_all = 0;
        for (int place = 0; place < OCTOFIX_PLACES; place++) {
            bool is_in = true;
            for (int axis = 0; axis < 3; axis++)
                is_in &= beam->voxels[axis][place] >= within->low[axis] &&
                         beam->voxels[axis][place] <= within->high[axis];
            to->bits |= (uint32_t)is_in << place;
            to->places += is_in;
            to->changes[place] = is_in ? beam->changes[place] : 0;
            to->changes_in_all += to->changes[place];
            for (int axis = 0; axis < 3; axis++)
                to->voxels[axis][place] = is_in ? beam->voxels[axis][place] : INT16_MAX;
        }
        it->inside_now += to->places != 0;
    }
}

/* What the region with most to do has to do after a cut, so many times as there are regions. */
static inline double octofix_most_work(const octofix_cutting *it, octofix_place_to_cut cut,
                                       uint64_t few, uint64_t count) {
    uint64_t ones = 0, others = 0;
    for (size_t i = 0; i < it->inside_now; i++) {
        const octofix_inside *beam = &it->inside[i];
        int16_t before = 0, changes = 0;
        for (int place = 0; place < OCTOFIX_PLACES; place++) {
            const int is_before = beam->voxels[cut.axis][place] < cut.at;
            before = (int16_t)(before + is_before);
            changes = (int16_t)(changes + (is_before ? beam->changes[place] : 0));
        }
        const uint64_t behind = (uint64_t)(beam->changes_in_all - changes);
        ones += (octofix_work(before) + (uint64_t)changes) * beam->weight;
        others += (octofix_work(beam->places - before) + behind) * beam->weight;
    }
    const double first = (double)ones * (double)(count - few);
    const double second = (double)others * (double)few;
    return first > second ? first : second;
}

/* Sums up what is to be done on an axis of a region, up to each voxel; all of it. */
static inline double octofix_sum_up(octofix_cutting *it, const octofix_region *within, int axis) {
    const int32_t low = within->low[axis], edge = within->high[axis] - low;
    for (int32_t i = 0; i <= edge; i++) it->sums[i] = 0;
    for (size_t i = 0; i < it->inside_now; i++)
        for (int place = 0; place < OCTOFIX_PLACES; place++)
            if (it->inside[i].bits >> place & 1)
                it->sums[it->inside[i].voxels[axis][place] - low] +=
                    (double)(OCTOFIX_MET + it->inside[i].changes[place]) *
                    (double)it->inside[i].weight;
    for (int32_t i = 1; i <= edge; i++) it->sums[i] += it->sums[i - 1];
    return it->sums[edge];
}

/* The first of the sums, up to the last one, that is no less. */
static inline int32_t octofix_first_sum(const double *sums, int32_t last, double wanted) {
    int32_t low = 0, high = last;
    while (low < high) {
        const int32_t middle = low + (high - low) / 2;
        if (sums[middle] < wanted)
            low = middle + 1;
        else
            high = middle;
    }
    return low;
}

/* Tries to cut on an axis, around where this share of what is to be done ends. */
static inline void octofix_try_axis(octofix_cutting *it, const octofix_region *within, int axis,
                                    uint64_t few, uint64_t count, double *least,
                                    octofix_place_to_cut *best) {
    const int32_t low = within->low[axis], edge = within->high[axis] - low;
    const double all = edge == 0 ? 0 : octofix_sum_up(it, within, axis);
    octofix_place_to_cut tried = {axis, low};
    if (all == 0) return;
    for (int step = -6; step <= 6; step++) {
        double share = (double)few / (double)count + step * 0.03;
        share = share < 0.01 ? 0.01 : share > 0.99 ? 0.99 : share;
        const int32_t there = octofix_first_sum(it->sums, edge, share * all);
        for (int32_t more = 0; more < 2; more++) {
            const int32_t far = there + more < 1 ? 1 : there + more > edge ? edge : there + more;
            if (low + far <= tried.at) continue;
            tried.at = low + far;
            const double most = octofix_most_work(it, tried, few, count);
            if (*least < 0 || most < *least) *least = most, *best = tried;
        }
    }
}

/* Where so few of the regions are best cut off: where the region with most to do has least. The
 * middle of the longest edge where there is nothing. */
static inline octofix_place_to_cut octofix_best_cut(octofix_cutting *it,
                                                    const octofix_region *within, uint64_t few,
                                                    uint64_t count) {
    double least = -1;
    octofix_place_to_cut best = {0, 0};
    octofix_look_inside(it, within);
    for (int axis = 0; axis < 3; axis++)
        octofix_try_axis(it, within, axis, few, count, &least, &best);
    if (least >= 0) return best;
    int64_t longest = -1;
    for (int axis = 0; axis < 3; axis++) {
        const int64_t low = within->low[axis], high = within->high[axis];
        if (high - low <= longest) continue;
        longest = high - low;
        best.axis = axis, best.at = (int32_t)octofix_floor(low + high + 1, 2);
    }
    return best;
}

/* Cuts this in so many regions, of which the first has this number. */
static inline void octofix_cut_within(octofix_cutting *it, const octofix_region *within,
                                      uint64_t count, int64_t number) {
    octofix_cut *here = &it->cuts[it->cuts_made++];
    here->axis = OCTOFIX_NOT_ASKED, here->at = here->after = 0;
    if (it->only >= 0 && (it->only < number || it->only - number >= (int64_t)count)) return;
    if (count == 1) {
        here->axis = OCTOFIX_A_REGION, here->at = it->regions_made;
        it->regions[it->regions_made++] = *within;
        return;
    }
    uint64_t few = count / 2;
    const octofix_place_to_cut cut = octofix_best_cut(it, within, few, count);
    octofix_region before = *within, after = *within;
    before.high[cut.axis] = cut.at - 1, after.low[cut.axis] = cut.at;
    /* (each has a voxel at least) */
    const uint64_t room_before = octofix_size_of(&before), room_after = octofix_size_of(&after);
    if (room_after < count - few) few = count - room_after;
    if (room_before < few) few = room_before;
    here->axis = cut.axis, here->at = cut.at;
    octofix_cut_within(it, &before, few, number);
    here->after = it->cuts_made;
    octofix_cut_within(it, &after, count - few, number + (int64_t)few);
}

/* Cuts all in so many regions, each with about as much to do, and at most as many as voxels. */
static inline void octofix_cut_all(octofix_cutting *it, uint64_t count) {
    const octofix_region all = octofix_everywhere();
    it->cuts_made = it->regions_made = 0;
    octofix_cut_within(it, &all, count, 0);
}

/* -- which beams come near to which region */

/* Is told the number of a beam, and to which region it comes near. */
typedef void octofix_told(void *who, int32_t region, size_t beam);

typedef struct {
    const octofix_cut *cuts;
    double edge, from[3], way[3], inverse[3];
    size_t beam;
    octofix_told *tell;
    void *who;
} octofix_descent;

/* Where the part of a beam lies that is asked about, from 0 to 1. */
typedef struct {
    double enter, leave;
} octofix_part;

/* The part that lies before where a voxel begins on an axis, or behind that; it may be none. */
static inline octofix_part octofix_part_of(const octofix_descent *it, int axis, int32_t at,
                                           bool is_behind, octofix_part of) {
    const double away = at * it->edge - it->from[axis];
    const double way = it->way[axis], met = away * it->inverse[axis];
    if (way == 0) {
        if (is_behind ? away > 0 : away < 0) of.enter = 2, of.leave = -1;
    } else if ((way > 0) == is_behind) {
        if (met > of.enter) of.enter = met;
    } else {
        if (met < of.leave) of.leave = met;
    }
    return of;
}

/* Goes down the tree with the part of a beam that comes near to what a node has. (Each side of a
 * cut has the voxel of the other one that is next to it.) */
static inline void octofix_go_down(const octofix_descent *it, int32_t node, octofix_part part) {
    while (part.enter <= part.leave) {
        const octofix_cut cut = it->cuts[node];
        if (cut.axis == OCTOFIX_A_REGION) it->tell(it->who, cut.at, it->beam);
        if (cut.axis < 0) return;
        octofix_go_down(it, node + 1, octofix_part_of(it, cut.axis, cut.at + 1, false, part));
        part = octofix_part_of(it, cut.axis, cut.at - 1, true, part);
        node = cut.after;
    }
}

/* Tells of each beam of a sensor, in their order, to which regions it comes nearer than a voxel's
 * edge, by which it may be rounded: no other one goes through a voxel of them. */
static inline void octofix_part_beams(const octofix_cut *cuts, octofix_point origin,
                                      const octofix_point *beams, size_t count, int64_t edge,
                                      int64_t range, octofix_told *tell, void *who) {
    octofix_descent it;
    it.cuts = cuts, it.edge = (double)edge, it.tell = tell, it.who = who;
    it.from[0] = (double)origin.x, it.from[1] = (double)origin.y, it.from[2] = (double)origin.z;
    const octofix_part whole = {0, 1};
    for (it.beam = 0; it.beam < count; it.beam++) {
        const octofix_point way = octofix_cut_off(beams[it.beam], range);
        it.way[0] = (double)way.x, it.way[1] = (double)way.y, it.way[2] = (double)way.z;
        for (int axis = 0; axis < 3; axis++) it.inverse[axis] = 1 / it.way[axis];
        octofix_go_down(&it, 0, whole);
    }
}

#endif
