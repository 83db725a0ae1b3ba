/* Edits of voxels and boxes, and the other changes of a map but scans. */
#include "native.h"

#include <stdlib.h>
#include <string.h>

/* -- edits of points */

/* What an edit does to all points: an event with its number, or the map's own hit or miss. */
enum { OWN_HIT = -1, OWN_MISS = -2 };
static const long long MOST_NUMBER = 1000000;

static void fail_edits(uint32_t code, octofix_details named, size_t index) {
    Py_XDECREF(PyObject_CallFunction(python.fail_edits, "IKKn", code,
                                     (unsigned long long)named.first,
                                     (unsigned long long)named.second, (Py_ssize_t)index));
}

static void take_own_odds(map *self, octofix_point_edit *rows, size_t count, long long what) {
    octofix_settings settings = {0};
    library.settings_of(&self->handle, &settings);
    const int32_t number = what == OWN_HIT ? settings.odds.hit : settings.odds.miss;
    for (size_t at = 0; at < count; at++) rows[at].number = number;
}

static PyObject *do_rows(map *self, octofix_point_edit *rows, size_t count, long long what,
                         PyObject *is_lazy) {
    octofix_details named = NO_DETAILS;
    size_t done = 0;
    uint32_t code;
    const int lazy = take_flag(is_lazy);
    if (lazy < 0 || take_writing(self, NULL) < 0) return NULL;
    PyThreadState *gil = give_gil(count > FEW);
    if (what < 0) take_own_odds(self, rows, count, what);
    if (count == 1)
        code = library.edit(&self->handle, &rows->point, rows->event, rows->number, lazy, &named);
    else
        code = library.edit_all(&self->handle, rows, count, lazy, &done, &named);
    take_gil(gil);
    give_writing(self, NULL);
    if (code) {
        fail_edits(code, named, done);
        return NULL;
    }
    Py_RETURN_NONE;
}

/* Whether a plain event, which may be given already, and a plain number stand for all points. */
static bool are_plain(PyObject *event, PyObject *number, long long *what, long long *much) {
    *much = 0;
    if (event && !(is_integer(event, what) && *what >= OCTOFIX_ADD && *what <= OCTOFIX_LIKELY))
        return false;
    if (number && !(PyLong_CheckExact(number) && is_integer(number, much))) return false;
    if (*what == OCTOFIX_FORGET || *what == OCTOFIX_LIKELY) *much = 0;
    return *much >= -MOST_NUMBER && *much <= MOST_NUMBER;
}

/* The events and numbers of all points, as numpy makes them of what is given. */
static int take_changes(octofix_point_edit *rows, size_t count, PyObject *event, PyObject *number) {
    PyObject *made = PyObject_CallFunction(python.changes, "OOn", event, number, (Py_ssize_t)count);
    if (!made) return -1;
    Py_buffer view;
    const int failed = PyObject_GetBuffer(made, &view, PyBUF_WRITABLE);
    Py_DECREF(made); /* (the view keeps it) */
    if (failed) return -1;
    const size_t size = sizeof *rows - offsetof(octofix_point_edit, event);
    const char *from = view.buf;
    for (size_t at = 0; at < count; at++) memcpy(&rows[at].event, from + at * size, size);
    PyBuffer_Release(&view);
    return 0;
}

static int take_odd_changes(octofix_point_edit *rows, size_t count, PyObject *event,
                            long long what, PyObject *number) {
    PyObject *kind = event ? event : PyLong_FromLongLong(what);
    if (!kind) return -1;
    const int failed = take_changes(rows, count, kind, number ? number : Py_False);
    if (!event) Py_DECREF(kind);
    return failed;
}

static PyObject *edit_points(map *self, PyObject *given, PyObject *event, long long what,
                             PyObject *number, PyObject *is_lazy) {
    source from;
    octofix_point_edit few[FEW], *rows;
    long long much = 0;
    PyObject *made = NULL;
    if (open_source(&from, given, "points") < 0) return NULL;
    const size_t count = from.count;
    if ((rows = room_for(few, FEW, count, sizeof *rows)) &&
        convert_all(&from, "points", NULL, rows, sizeof *rows / sizeof(int64_t)) == 0) {
        if (what < 0 || are_plain(event, number, &what, &much)) {
            const uint32_t plain = what < 0 ? OCTOFIX_ADD : (uint32_t)what;
            for (size_t at = 0; at < count; at++)
                rows[at].event = plain, rows[at].number = (int32_t)much;
            made = do_rows(self, rows, count, what, is_lazy);
        } else if (take_odd_changes(rows, count, event, what, number) == 0) {
            made = do_rows(self, rows, count, 0, is_lazy);
        }
    }
    close_source(&from);
    if (rows != few) free(rows);
    return made;
}

static PyObject *map_edit(ARGUMENTS) {
    TAKE("edit", 2, 3, "points", "event", "number", "lazy");
    return edit_points(self, w[0], w[1], 0, w[2], w[3]);
}
static PyObject *map_set(ARGUMENTS) {
    TAKE("set", 2, 2, "points", "number", "lazy");
    return edit_points(self, w[0], NULL, OCTOFIX_SET, w[1], w[2]);
}
static PyObject *map_add(ARGUMENTS) {
    TAKE("add", 2, 2, "points", "number", "lazy");
    return edit_points(self, w[0], NULL, OCTOFIX_ADD, w[1], w[2]);
}
static PyObject *map_forget(ARGUMENTS) {
    TAKE("forget", 1, 1, "points", "lazy");
    return edit_points(self, w[0], NULL, OCTOFIX_FORGET, NULL, w[1]);
}
static PyObject *map_hit(ARGUMENTS) {
    TAKE("hit", 1, 1, "points", "lazy");
    return edit_points(self, w[0], NULL, OWN_HIT, NULL, w[1]);
}
static PyObject *map_miss(ARGUMENTS) {
    TAKE("miss", 1, 1, "points", "lazy");
    return edit_points(self, w[0], NULL, OWN_MISS, NULL, w[1]);
}

/* -- changes of a map as a whole, each of which may take long */

#define CHANGE(self, other, ...)                                                                   \
    octofix_details named = NO_DETAILS;                                                            \
    if (take_writing(self, other) < 0) return NULL;                                                \
    PyThreadState *gil = give_gil(true);                                                           \
    const uint32_t code = __VA_ARGS__;                                                             \
    take_gil(gil);                                                                                 \
    give_writing(self, other);                                                                     \
    if (code) return fail(code, named)

#define PLAIN_CHANGE(name)                                                                         \
    static PyObject *map_##name(map *self, PyObject *Py_UNUSED(none)) {                            \
        CHANGE(self, NULL, library.name(&self->handle));                                           \
        Py_RETURN_NONE;                                                                            \
    }
PLAIN_CHANGE(no_limit)
PLAIN_CHANGE(refresh)
PLAIN_CHANGE(prune)
PLAIN_CHANGE(clear)
PLAIN_CHANGE(max_likelihood)
PLAIN_CHANGE(track)
PLAIN_CHANGE(untrack)

static PyObject *map_limit(ARGUMENTS) {
    TAKE("limit", 2, 2, "low", "high");
    octofix_point at[2];
    if (take_corners(at, w[0], w[1]) < 0) return NULL;
    CHANGE(self, NULL, library.limit(&self->handle, &at[0], &at[1], &named));
    Py_RETURN_NONE;
}

static PyObject *map_edit_box(ARGUMENTS) {
    TAKE("edit_box", 3, 4, "low", "high", "event", "number");
    octofix_point at[2];
    long long what, much;
    if (take_corners(at, w[0], w[1]) < 0) return NULL;
    if (!are_plain(w[2], w[3], &what, &much)) {
        PyObject *both = PyObject_CallFunction(python.change, "OO", w[2], w[3] ? w[3] : Py_False);
        if (!both) return NULL;
        const int is_good = PyArg_ParseTuple(both, "LL", &what, &much);
        Py_DECREF(both);
        if (!is_good) return NULL;
    }
    CHANGE(self, NULL, library.edit_box(&self->handle, &at[0], &at[1], (uint32_t)what,
                                        (int32_t)much, &named));
    Py_RETURN_NONE;
}

static PyObject *map_keep(ARGUMENTS) {
    TAKE("keep", 2, 2, "low", "high");
    octofix_point at[2];
    if (take_corners(at, w[0], w[1]) < 0) return NULL;
    CHANGE(self, NULL, library.keep_box(&self->handle, &at[0], &at[1], &named));
    Py_RETURN_NONE;
}

/* Boxes from points to points in nanometres, with a number each, up to the first that is refused;
 * all three as buffers of int64. */
static PyObject *map_edit_boxes_in(map *self, PyObject *args) {
    Py_buffer lows, highs, numbers;
    unsigned event;
    if (!PyArg_ParseTuple(args, "y*y*Iy*", &lows, &highs, &event, &numbers)) return NULL;
    const octofix_point *low = lows.buf, *high = highs.buf;
    const int64_t *number = numbers.buf;
    const size_t count = least(least((size_t)lows.len, (size_t)highs.len) / sizeof *low,
                               (size_t)numbers.len / sizeof *number);
    octofix_details named = NO_DETAILS;
    uint32_t code = OCTOFIX_DONE;
    const int failed = take_writing(self, NULL);
    if (!failed) {
        PyThreadState *gil = give_gil(true);
        for (size_t at = 0; at < count && code == OCTOFIX_DONE; at++)
            code = library.edit_box(&self->handle, low + at, high + at, event, (int32_t)number[at],
                                    &named);
        take_gil(gil);
        give_writing(self, NULL);
    }
    PyBuffer_Release(&lows);
    PyBuffer_Release(&highs);
    PyBuffer_Release(&numbers);
    if (code) return fail(code, named);
    if (failed) return NULL;
    Py_RETURN_NONE;
}

static PyObject *map_merge(map *self, PyObject *args) {
    PyObject *other;
    unsigned rule;
    int by[3];
    if (!PyArg_ParseTuple(args, "OIiii", &other, &rule, &by[0], &by[1], &by[2])) return NULL;
    if (!is_map(other) || (map *)other == self) {
        PyErr_SetString(PyExc_TypeError, "another map is merged");
        return NULL;
    }
    map *second = (map *)other;
    const bool is_moved = by[0] || by[1] || by[2];
    CHANGE(self, second,
           is_moved ? library.merge_shifted(&self->handle, &second->handle, rule, &named, by[0],
                                            by[1], by[2])
                    : library.merge(&self->handle, &second->handle, rule, &named));
    Py_RETURN_NONE;
}

static PyObject *map_counts(map *self, PyObject *Py_UNUSED(none)) {
    octofix_counts found;
    CHANGE(self, NULL, library.counts_of(&self->handle, &found));
    return Py_BuildValue("(KK)", (unsigned long long)found.groups, (unsigned long long)found.nodes);
}

/* The map of a file or a snapshot, as bytes. */
static PyObject *take_file(map *self, PyObject *args, __typeof__(&octofix_load) call) {
    Py_buffer bytes;
    if (!PyArg_ParseTuple(args, "y*", &bytes)) return NULL;
    octofix_details named = NO_DETAILS;
    uint32_t code = OCTOFIX_DONE;
    const int failed = take_writing(self, NULL);
    if (!failed) {
        PyThreadState *gil = give_gil(true);
        code = call(&self->handle, bytes.buf, (size_t)bytes.len, &named);
        take_gil(gil);
        give_writing(self, NULL);
    }
    PyBuffer_Release(&bytes);
    if (code) return fail(code, named);
    if (failed) return NULL;
    Py_RETURN_NONE;
}
static PyObject *map_load(map *self, PyObject *args) { return take_file(self, args, library.load); }
static PyObject *map_restore(map *self, PyObject *args) {
    return take_file(self, args, library.restore);
}

const PyMethodDef edit_methods[] = {
    FAST(edit,
         "edit($self, points, event, number=0, *, lazy=False)\n--\n\n"
         "Edits the voxels that hold `points`, (n, 3) in metres, one after another.\n\n"
         "`event`, an `Event`, and `number`, in thousandths, are one for all points or (n,);\n"
         "beside `FORGET` and `LIKELY` a number means nothing. A lazy edit leaves depths below 16\n"
         "to `refresh`. Where point `index` is refused (23, 24), those before it are done, and\n"
         "none after it; so where `OutOfMemory` is raised with an `index`."),
    FAST(set, "set($self, points, number, *, lazy=False)\n--\n\n"
              "Gives `number` to the voxels that hold `points`, (n, 3), as `edit`."),
    FAST(add, "add($self, points, number, *, lazy=False)\n--\n\n"
              "Adds `number` to the voxels that hold `points`, (n, 3), as `edit`."),
    FAST(forget, "forget($self, points, *, lazy=False)\n--\n\n"
                 "Makes the voxels that hold `points`, (n, 3), unknown, as `edit`."),
    FAST(hit, "hit($self, points, *, lazy=False)\n--\n\n"
              "Adds what a hit adds to the voxels that hold `points`, (n, 3), as `edit`."),
    FAST(miss, "miss($self, points, *, lazy=False)\n--\n\n"
               "Adds what a miss adds to the voxels that hold `points`, (n, 3), as `edit`."),
    FAST(edit_box,
         "edit_box($self, low, high, event, number=0)\n--\n\n"
         "Edits each voxel from that of the point `low` to that of `high`, both included.\n\n"
         "Refused: 23, 24 (`point`), 26, and 27 (`count`) while a mark stands."),
    FAST(keep, "keep($self, low, high)\n--\n\n"
               "Forgets each voxel but those from that of the point `low` to that of `high`.\n\n"
               "The map prunes itself where it needs the room. Refused: 24 (`point`), 26, 23, and\n"
               "27 (`count`) while a mark stands and the least box around what the map knows has\n"
               "more than 1,000,000 voxels."),
    FAST(limit, "limit($self, low, high)\n--\n\n"
                "From now on scans change only voxels from that of `low` to that of `high`.\n\n"
                "Refused: 24 (`point`), 26."),
    PLAIN(no_limit, METH_NOARGS, "no_limit($self)\n--\n\nScans change all voxels again."),
    PLAIN(refresh, METH_NOARGS,
          "refresh($self)\n--\n\nLets depths below 16 answer again after lazy edits."),
    PLAIN(prune, METH_NOARGS,
          "prune($self)\n--\n\nGives back the groups that the values don't need."),
    PLAIN(clear, METH_NOARGS,
          "clear($self)\n--\n\nMakes each voxel unknown, and takes the mark away."),
    PLAIN(max_likelihood, METH_NOARGS,
          "max_likelihood($self)\n--\n\n"
          "Gives each occupied voxel the largest value, and each free one the smallest."),
    PLAIN(track, METH_NOARGS, "track($self)\n--\n\nSets the mark, in place of an earlier one."),
    PLAIN(untrack, METH_NOARGS, "untrack($self)\n--\n\nTakes the mark away."),
    PRIVATE(edit_boxes_in, METH_VARARGS),
    PRIVATE(merge, METH_VARARGS),
    PRIVATE(counts, METH_NOARGS),
    PRIVATE(load, METH_VARARGS),
    PRIVATE(restore, METH_VARARGS),
    {0}};
