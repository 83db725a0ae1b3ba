/* native.h: what the files of octofix._native have in common.
 *
 * The module is written to the limited API of Python 3.9, so that one file of code serves each
 * later Python. What comes in as tuples, lists, plain numbers and arrays of doubles or floats is
 * read here; all else numpy makes such an array of, through the functions of octofix/_support.py,
 * which also raises the errors.
 */
#ifndef OCTOFIX_NATIVE_H
#define OCTOFIX_NATIVE_H

#define Py_LIMITED_API 0x03090000
#define PY_SSIZE_T_CLEAN
#include <Python.h>
#ifdef Py_GIL_DISABLED
#error "octofix needs a Python that has a GIL, by which it counts who asks a map and who changes it"
#endif

#include <octofix.h>
#include <stdbool.h>
#include <stddef.h>
#include <stdint.h>

#ifndef METH_FASTCALL /* the limited API has it from 3.10 on, and each Python from 3.7 on */
#define METH_FASTCALL 0x0080
#endif
/* Buffers: the limited API has them from 3.11 on, and each Python 3 these same ones. */
typedef struct {
    void *buf;
    PyObject *obj;
    Py_ssize_t len, itemsize;
    int readonly, ndim;
    char *format;
    Py_ssize_t *shape, *strides, *suboffsets;
    void *internal;
} Py_buffer;
#define PyBUF_WRITABLE 0x0001
#define PyBUF_FORMAT 0x0004
#define PyBUF_STRIDES (0x0010 | 0x0008)
int PyObject_GetBuffer(PyObject *, Py_buffer *, int);
void PyBuffer_Release(Py_buffer *);

enum {
    FEW = 16,        /* rows that need no memory of the heap */
    SHORT = 256,     /* points that are done without giving the GIL away */
    LONG_WAY = 1000, /* voxels on an axis, from which on a way takes long */
    DEEPEST = 16
};
static const octofix_details NO_DETAILS = {0, 0};

/* -- the library: where its calls are, which `setup` is told */

#define LIBRARY_CALLS(X)                                                                           \
    X(open) X(close) X(settings_of) X(memory) X(edit) X(edit_box) X(keep_box) X(edit_all) X(scan)  \
    X(scan_in_map) X(limit) X(no_limit) X(window) X(refresh) X(prune) X(clear) X(max_likelihood)   \
    X(merge) X(merge_shifted) X(counts_of) X(least_tree_of) X(get) X(get_all) X(cast) X(cast_all)  \
    X(list) X(leaves_of) X(leaves_of_in) X(grid) X(bounds) X(ray) X(track) X(untrack) X(changes)   \
    X(save) X(load) X(snapshot) X(restore) X(copy)
#define LIBRARY_FIELD(name) __typeof__(&octofix_##name) name;
typedef struct { LIBRARY_CALLS(LIBRARY_FIELD) } library_calls;
extern library_calls library;

/* -- what Python passes by `setup`: functions that raise, or take odd input; and types */

#define PYTHON_OBJECTS(X)                                                                          \
    X(fail) X(fail_row) X(fail_edits) X(fail_points) X(interrupted) X(one_point) X(step)           \
    X(rows) X(pose) X(quaternion) X(depth) X(length) X(own_odds) X(change) X(changes)              \
    X(array) X(float64) X(empty) X(new_tuple) X(Counted) X(Casts) X(Stop) X(classes) X(kinds)      \
    X(int8) X(int32) X(uint8) X(uint16) X(block) X(changed) X(key)
#define PYTHON_FIELD(name) PyObject *name;
typedef struct { PYTHON_OBJECTS(PYTHON_FIELD) } python_objects;
extern python_objects python;

/* -- a map */

typedef struct map {
    PyObject_HEAD
    octofix_map handle;
    int64_t edge;                /* of a voxel, in nanometres */
    int readers, waiting_writers;
    bool is_changing;            /* a writer is in */
    bool is_lost;                /* one was in another thread when the process was forked */
    struct map *next, **place;   /* all maps, for forks */
} map;

/* -- lock.c */

void add_map(map *self);
void remove_map(map *self);
int take_reading(map *self);
void give_reading(map *self);
int take_writing(map *one, map *two);
void give_writing(map *one, map *two);
PyObject *map_hold(map *self, PyObject *args);
PyObject *after_fork(PyObject *module, PyObject *none);

/* Gives the GIL away for a call that takes long, under a lock or before one is taken. */
static inline PyThreadState *give_gil(bool is_long) { return is_long ? PyEval_SaveThread() : NULL; }
static inline void take_gil(PyThreadState *given) {
    if (given) PyEval_RestoreThread(given);
}

/* -- arguments.c: all answer -1, with an exception, where they fail */

/* The words of a call: which it has, how many of them it needs, and how many may stand unnamed. */
typedef struct {
    const char *call, *names[8];
    int needed, unnamed;
} words;
int take_words(const words *say, PyObject *const *given, Py_ssize_t count, PyObject *names,
               PyObject **to);
#define ARGUMENTS map *self, PyObject *const *args, Py_ssize_t count, PyObject *names
/* Puts the arguments into w, NULL where one isn't given. */
#define TAKE(call, needed, unnamed, ...)                                                           \
    static const words say = {call, {__VA_ARGS__}, needed, unnamed};                               \
    PyObject *w[8];                                                                                \
    if (take_words(&say, args, count, names, w) < 0) return NULL

bool is_number(PyObject *it, double *to);
bool is_integer(PyObject *it, long long *to);
bool is_row(PyObject *it, Py_ssize_t count, double *to);
Py_ssize_t size_of_row(PyObject *it);
PyObject *item_of_row(PyObject *it, Py_ssize_t at);
bool is_plain_depth(PyObject *given, uint32_t *to);
int take_depth(PyObject *given, uint32_t *to);
int take_flag(PyObject *given);
int take_options(octofix_scan_options *to, PyObject *hit, PyObject *miss, PyObject *lazy);
int take_length(PyObject *given, const char *what, int64_t *to);
/* A turn by a quaternion, as the matrix of it. */
typedef struct {
    double matrix[9];
    bool is_turned, is_none; /* it isn't 1 0 0 0; all four are 0 */
} turn;
int take_turn(turn *to, PyObject *given);

PyObject *fail(uint32_t code, octofix_details named);
PyObject *fail_row(uint32_t code, size_t index);
PyObject *new_array(PyObject *shape, PyObject *kind, void **at);
PyObject *new_tuple(PyObject *kind, PyObject *items);

/* -- points.c */

/* Rows of three numbers in metres, wherever they stand. */
typedef struct {
    size_t count;
    const char *first;
    Py_ssize_t row, column; /* bytes from one to the next */
    bool is_float;          /* and no doubles */
    Py_buffer view;
    double few[3 * FEW], *many;
} source;
int open_source(source *it, PyObject *given, const char *what);
void close_source(source *it);
size_t convert(const source *it, size_t start, size_t count, const turn *by, void *to, size_t step);
int convert_all(const source *it, const char *what, const turn *by, void *to, size_t step);
int check_points(const source *it, const char *what);
int fail_points(const char *what, size_t index);

/* Points in whole nanometres, with room for a few. */
typedef struct {
    size_t count;
    octofix_point few[FEW], *at;
} points;
int take_points(points *it, PyObject *given, const char *what, const turn *by);
void free_points(points *it);
int take_point(octofix_point *to, PyObject *given, const char *what);
int take_corners(octofix_point to[2], PyObject *low, PyObject *high);
bool is_far(const map *self, octofix_point one, octofix_point other);
void *room_for(void *few, size_t most, size_t count, size_t size);
static inline size_t least(size_t one, size_t other) { return one < other ? one : other; }

/* -- the calls of a map, by the files that have them */

extern const PyMethodDef question_methods[], edit_methods[], scan_methods[], list_methods[];
extern PyMethodDef region_functions[];
PyObject *ray(PyObject *module, PyObject *args);
bool is_map(PyObject *it);
#define FAST(name, text)                                                                           \
    {#name, (PyCFunction)(void (*)(void))map_##name, METH_FASTCALL | METH_KEYWORDS, text}
#define PLAIN(name, how, text) {#name, (PyCFunction)(void (*)(void))map_##name, how, text}
#define PRIVATE(name, how) {"_" #name, (PyCFunction)(void (*)(void))map_##name, how, NULL}

#endif
