/* Lists of what a map has, each an array, and other questions about all of it. */
#include "native.h"

#include <stdlib.h>
#include <string.h>

/* The bytes of a list before a call says how many it takes. (Those that aren't written cost
 * nothing; from 4 MB on numpy asks for pages that do.) */
enum { FIRST_BYTES = 1 << 21 };

/* What is listed, and what came of it. */
typedef struct listing {
    uint32_t (*call)(const map *, struct listing *, void *rows, size_t room);
    octofix_point low, high;
    int64_t edge;
    uint32_t number; /* a depth, or what is sought */
    size_t count;
    octofix_details named;
} listing;

#define LISTING(name, ...)                                                                         \
    static uint32_t name##_rows(const map *self, listing *it, void *rows, size_t room) {           \
        (void)self;                                                                                \
        return library.name(__VA_ARGS__);                                                          \
    }
#define HANDLE &self->handle
#define BOX &it->low, &it->high
#define ROWS rows, room, &it->count
LISTING(list, HANDLE, BOX, it->number, ROWS, &it->named)
LISTING(leaves_of, HANDLE, it->number, ROWS)
LISTING(leaves_of_in, HANDLE, it->number, BOX, ROWS, &it->named)
LISTING(grid, HANDLE, BOX, ROWS, &it->named)
LISTING(changes, HANDLE, ROWS)
LISTING(save, HANDLE, ROWS)
LISTING(snapshot, HANDLE, ROWS)
LISTING(ray, it->edge, BOX, ROWS, &it->named)

/* Lists into these rows, under the lock of a map where it is of one. */
static int list_into(map *self, listing *it, void *rows, size_t room, uint32_t *code) {
    it->named = NO_DETAILS;
    if (self && take_reading(self) < 0) return -1;
    PyThreadState *gil = give_gil(true);
    *code = it->call(self, it, rows, room);
    take_gil(gil);
    if (self) give_reading(self);
    return 0;
}

/* The rows in an array of a kind, in another one where the first is too small. */
static PyObject *rows_of(map *self, listing *it, PyObject *kind, size_t size) {
    size_t room = FIRST_BYTES / size;
    for (;;) {
        void *rows;
        uint32_t code;
        PyObject *found = NULL, *made = new_array(PyLong_FromSize_t(room), kind, &rows);
        if (!made) return NULL;
        const int failed = list_into(self, it, rows, room, &code);
        if (!failed && code == OCTOFIX_DONE)
            found = PySequence_GetSlice(made, 0, (Py_ssize_t)it->count);
        Py_DECREF(made);
        if (failed || code == OCTOFIX_DONE) return found;
        if (code != OCTOFIX_SMALL_BUFFER) return fail(code, it->named);
        room = it->count;
    }
}

/* Leaves, by one walk: one takes more than eight bytes of most maps, so that they have room in an
 * eighth as many blocks as the map has bytes. (Those that aren't written cost nothing.) */
static PyObject *leaves_at_once(map *self, listing *it) {
    uint64_t bytes = 0;
    uint32_t code;
    void *rows;
    if (take_reading(self) < 0) return NULL;
    library.memory(&self->handle, &bytes); /* (that the map is closed is told by the list) */
    give_reading(self);
    const size_t size = sizeof(octofix_block), room = bytes / 8 + 1;
    void *found = room * size > FIRST_BYTES ? malloc(room * size) : NULL;
    if (!found) return rows_of(self, it, python.block, size);
    const int failed = list_into(self, it, found, room, &code);
    PyObject *made = NULL;
    if (!failed && code == OCTOFIX_SMALL_BUFFER)
        made = rows_of(self, it, python.block, size);
    else if (!failed && code != OCTOFIX_DONE)
        made = fail(code, it->named);
    else if (!failed && (made = new_array(PyLong_FromSize_t(it->count), python.block, &rows)))
        memcpy(rows, found, it->count * size);
    free(found);
    return made;
}

static PyObject *map_list(map *self, PyObject *args) {
    PyObject *low, *high, *depth;
    listing it = {.call = list_rows};
    if (!PyArg_ParseTuple(args, "OOO", &low, &high, &depth)) return NULL;
    if (take_corners(&it.low, low, high) < 0 || take_depth(depth, &it.number) < 0) return NULL;
    return rows_of(self, &it, python.block, sizeof(octofix_block));
}

static PyObject *map_leaves(map *self, PyObject *args) {
    PyObject *low = NULL, *high = NULL;
    listing it = {.call = leaves_of_rows};
    if (!PyArg_ParseTuple(args, "I|OO", &it.number, &low, &high)) return NULL;
    if (high) it.call = leaves_of_in_rows;
    if (high && take_corners(&it.low, low, high) < 0) return NULL;
    return leaves_at_once(self, &it);
}

/* The cells, and how many there are in a row. */
static PyObject *map_grid(map *self, PyObject *args) {
    PyObject *low, *high;
    listing it = {.call = grid_rows};
    if (!PyArg_ParseTuple(args, "OO", &low, &high)) return NULL;
    if (take_corners(&it.low, low, high) < 0) return NULL;
    PyObject *cells = rows_of(self, &it, python.int8, 1);
    if (!cells) return NULL;
    const int64_t half = 32768 * self->edge; /* (both lie in the map, so that no sum is negative) */
    const int64_t width = (it.high.x + half) / self->edge - (it.low.x + half) / self->edge + 1;
    return Py_BuildValue("NL", cells, (long long)width);
}

static PyObject *map_changes(map *self, PyObject *Py_UNUSED(none)) {
    listing it = {.call = changes_rows};
    return rows_of(self, &it, python.changed, sizeof(octofix_change));
}

static PyObject *map_save(map *self, PyObject *Py_UNUSED(none)) {
    listing it = {.call = save_rows};
    return rows_of(self, &it, python.uint8, 1);
}

static PyObject *map_snapshot(map *self, PyObject *Py_UNUSED(none)) {
    listing it = {.call = snapshot_rows};
    return rows_of(self, &it, python.uint8, 1);
}

PyObject *ray(PyObject *Py_UNUSED(module), PyObject *args) {
    PyObject *origin, *end;
    long long edge;
    listing it = {.call = ray_rows};
    if (!PyArg_ParseTuple(args, "LOO", &edge, &origin, &end)) return NULL;
    it.edge = edge;
    if (take_point(&it.low, origin, "origin") < 0 || take_point(&it.high, end, "end") < 0)
        return NULL;
    return rows_of(NULL, &it, python.key, sizeof(octofix_key));
}

/* -- one answer about all of the map */

#define QUESTION(self, ...)                                                                        \
    if (take_reading(self) < 0) return NULL;                                                       \
    PyThreadState *gil = give_gil(true);                                                           \
    const uint32_t code = __VA_ARGS__;                                                             \
    take_gil(gil);                                                                                 \
    give_reading(self)

static PyObject *map_settings(map *self, PyObject *Py_UNUSED(none)) {
    octofix_settings it;
    if (take_reading(self) < 0) return NULL;
    const uint32_t code = library.settings_of(&self->handle, &it);
    give_reading(self);
    if (code) return fail(code, NO_DETAILS);
    return Py_BuildValue("(iiiii)(KK)NN", it.odds.hit, it.odds.miss, it.odds.min, it.odds.max,
                         it.odds.thr, (unsigned long long)it.limits.max_groups,
                         (unsigned long long)it.limits.max_cells, PyBool_FromLong(it.is_stale),
                         PyBool_FromLong(it.is_tracked));
}

static PyObject *map_memory(map *self, PyObject *Py_UNUSED(none)) {
    uint64_t bytes;
    QUESTION(self, library.memory(&self->handle, &bytes));
    return code ? fail(code, NO_DETAILS) : PyLong_FromUnsignedLongLong(bytes);
}

static PyObject *map_least_tree(map *self, PyObject *Py_UNUSED(none)) {
    octofix_least_tree it;
    QUESTION(self, library.least_tree_of(&self->handle, &it));
    if (code) return fail(code, NO_DETAILS);
    return Py_BuildValue("(KKK)", (unsigned long long)it.groups, (unsigned long long)it.nodes,
                         (unsigned long long)it.leaves);
}

static PyObject *box(uint32_t code, octofix_box it) {
    if (code == OCTOFIX_NONE) Py_RETURN_NONE;
    if (code) return fail(code, NO_DETAILS);
    return Py_BuildValue("(HHH)(HHH)", it.low.x, it.low.y, it.low.z, it.high.x, it.high.y,
                         it.high.z);
}

static PyObject *map_window(map *self, PyObject *Py_UNUSED(none)) {
    octofix_box it = {{0, 0, 0}, {0, 0, 0}};
    QUESTION(self, library.window(&self->handle, &it));
    return box(code, it);
}

static PyObject *map_bounds(map *self, PyObject *args) {
    octofix_box it = {{0, 0, 0}, {0, 0, 0}};
    unsigned sought;
    if (!PyArg_ParseTuple(args, "I", &sought)) return NULL;
    QUESTION(self, library.bounds(&self->handle, sought, &it));
    return box(code, it);
}

const PyMethodDef list_methods[] = {
    PRIVATE(list, METH_VARARGS),    PRIVATE(leaves, METH_VARARGS),
    PRIVATE(grid, METH_VARARGS),    PRIVATE(changes, METH_NOARGS),
    PRIVATE(save, METH_NOARGS),     PRIVATE(snapshot, METH_NOARGS),
    PRIVATE(settings, METH_NOARGS), PRIVATE(memory, METH_NOARGS),
    PRIVATE(least_tree, METH_NOARGS), PRIVATE(window, METH_NOARGS),
    PRIVATE(bounds, METH_VARARGS),  {0}};
