/* Regions: where they are cut, and which beams of a scan come near to which (cuts.h). Beams, places
 * and samples are buffers of whole numbers, which octofix.mapping.regions makes. */
#include "native.h"

#include <cuts.h>
#include <stdlib.h>
#include <string.h>

/* A scan: a sensor's place, and its beams. */
typedef struct {
    Py_buffer origin, beams;
    octofix_point from;
    const octofix_point *at;
    size_t count;
} scan;

static void close_scan(scan *it) {
    PyBuffer_Release(&it->origin);
    PyBuffer_Release(&it->beams);
}

static int unfit(const char *what) {
    PyErr_Format(PyExc_ValueError, "%s of another size", what);
    return -1;
}

/* Takes what was parsed; where that is nothing of the kind it is released. */
static int open_scan(scan *it) {
    it->at = it->beams.buf, it->count = (size_t)it->beams.len / sizeof *it->at;
    const bool is_fit = it->origin.len == sizeof it->from && it->beams.len % sizeof *it->at == 0;
    if (is_fit) memcpy(&it->from, it->origin.buf, sizeof it->from);
    if (is_fit) return 0;
    close_scan(it);
    return unfit("a scan");
}

static PyObject *is_safe(PyObject *Py_UNUSED(module), PyObject *args) {
    scan it;
    long long edge, range;
    unsigned long long cells;
    if (!PyArg_ParseTuple(args, "y*y*LLK", &it.origin, &it.beams, &edge, &range, &cells) ||
        open_scan(&it) < 0)
        return NULL;
    PyThreadState *gil = give_gil(it.count > SHORT);
    const bool is = octofix_is_safe(it.from, false, it.at, it.count, edge, range, cells);
    take_gil(gil);
    close_scan(&it);
    return PyBool_FromLong(is);
}

/* Puts the beams of a scan, cut at a range, into a buffer. */
static PyObject *cut_off(PyObject *Py_UNUSED(module), PyObject *args) {
    Py_buffer from, to;
    long long range;
    if (!PyArg_ParseTuple(args, "y*Lw*", &from, &range, &to)) return NULL;
    const octofix_point *beams = from.buf;
    octofix_point *cut = to.buf;
    const bool is_fit = from.len == to.len;
    PyThreadState *gil = give_gil(true);
    for (size_t i = 0; is_fit && i < (size_t)from.len / sizeof *beams; i++)
        cut[i] = octofix_cut_off(beams[i], range);
    take_gil(gil);
    PyBuffer_Release(&from);
    PyBuffer_Release(&to);
    if (!is_fit && unfit("room for beams") < 0) return NULL;
    Py_RETURN_NONE;
}

/* Puts samples of a scan, which stands for so many, into a buffer that has room for those. */
static PyObject *sample(PyObject *Py_UNUSED(module), PyObject *args) {
    scan it;
    long long edge, range;
    unsigned long long weight;
    Py_buffer room;
    if (!PyArg_ParseTuple(args, "y*y*LLKw*", &it.origin, &it.beams, &edge, &range, &weight,
                          &room))
        return NULL;
    const size_t taken = (size_t)room.len / sizeof(octofix_sample);
    const int failed = open_scan(&it);
    octofix_point *picked = failed ? NULL : malloc((taken + 1) * sizeof *picked);
    if (picked) {
        for (size_t i = 0; i < taken; i++) picked[i] = it.at[octofix_picked(i, it.count)];
        octofix_add_samples(room.buf, it.from, picked, taken, it.count, edge, range, weight);
        free(picked);
    }
    if (!failed) close_scan(&it);
    PyBuffer_Release(&room);
    if (failed) return NULL;
    if (!picked) return PyErr_NoMemory();
    Py_RETURN_NONE;
}

/* Cuts by samples, and puts cuts and regions into buffers; how many there are of both. */
static PyObject *cut_regions(PyObject *Py_UNUSED(module), PyObject *args) {
    Py_buffer samples, cuts, regions;
    unsigned long long count;
    octofix_cutting it = {0};
    long long only;
    if (!PyArg_ParseTuple(args, "y*KLw*w*", &samples, &count, &only, &cuts, &regions)) return NULL;
    it.samples = samples.buf, it.count = (size_t)samples.len / sizeof *it.samples, it.only = only;
    it.cuts = cuts.buf, it.regions = regions.buf;
    it.inside = malloc((it.count + 1) * sizeof *it.inside);
    it.sums = malloc(OCTOFIX_VOXELS * sizeof *it.sums);
    const bool has_room = it.inside && it.sums;
    const bool is_fit = (size_t)cuts.len / sizeof *it.cuts / 2 >= count &&
                        (size_t)regions.len / sizeof *it.regions >= (only < 0 ? count : 1);
    PyThreadState *gil = give_gil(true);
    if (has_room && is_fit) octofix_cut_all(&it, count);
    free(it.inside);
    free(it.sums);
    take_gil(gil);
    PyBuffer_Release(&samples);
    PyBuffer_Release(&cuts);
    PyBuffer_Release(&regions);
    if (!has_room) return PyErr_NoMemory();
    if (!is_fit && unfit("room for regions") < 0) return NULL;
    return Py_BuildValue("(ii)", (int)it.cuts_made, (int)it.regions_made);
}

/* The numbers of beams that come near to a region. */
typedef struct {
    int64_t *at;
    size_t count, room;
} numbers;

typedef struct {
    numbers *of;
    bool has_memory;
} shares;

static void put(void *who, int32_t region, size_t beam) {
    shares *all = who;
    numbers *to = &all->of[region];
    if (to->count == to->room) {
        const size_t room = 2 * to->room + SHORT;
        int64_t *at = realloc(to->at, room * sizeof *at);
        if (!at) {
            all->has_memory = false;
            return;
        }
        to->at = at, to->room = room;
    }
    to->at[to->count++] = (int64_t)beam;
}

static PyObject *list_of(const shares *all, Py_ssize_t regions) {
    PyObject *made = PyList_New(regions);
    for (Py_ssize_t i = 0; made && i < regions; i++) {
        const numbers *it = &all->of[i];
        const Py_ssize_t size = (Py_ssize_t)(it->count * sizeof *it->at);
        PyObject *bytes = PyBytes_FromStringAndSize((const char *)it->at, size);
        if (!bytes || PyList_SetItem(made, i, bytes) < 0) Py_CLEAR(made);
    }
    return made;
}

/* For each of so many regions of a tree the numbers of the beams that come near to it, as the bytes
 * of 64-bit numbers. */
static PyObject *part(PyObject *Py_UNUSED(module), PyObject *args) {
    Py_buffer cuts;
    Py_ssize_t regions;
    scan it;
    long long edge, range;
    if (!PyArg_ParseTuple(args, "y*ny*y*LL", &cuts, &regions, &it.origin, &it.beams, &edge, &range))
        return NULL;
    PyObject *made = NULL;
    shares all = {calloc((size_t)regions + 1, sizeof *all.of), true};
    if (open_scan(&it) == 0) {
        PyThreadState *gil = give_gil(true);
        if (all.of)
            octofix_part_beams(cuts.buf, it.from, it.at, it.count, edge, range, put, &all);
        take_gil(gil);
        close_scan(&it);
        made = all.of && all.has_memory ? list_of(&all, regions) : PyErr_NoMemory();
    }
    for (Py_ssize_t i = 0; all.of && i < regions; i++) free(all.of[i].at);
    free(all.of);
    PyBuffer_Release(&cuts);
    return made;
}

PyMethodDef region_functions[] = {{"is_safe", is_safe, METH_VARARGS, NULL},
                                  {"cut_off", cut_off, METH_VARARGS, NULL},
                                  {"sample", sample, METH_VARARGS, NULL},
                                  {"cut_regions", cut_regions, METH_VARARGS, NULL},
                                  {"part", part, METH_VARARGS, NULL},
                                  {0}};
