/* Scans. */
#include "native.h"

#include <stdlib.h>
#include <string.h>

/* A scan that is to be done: in the frame of a sensor, or in that of the map. */
typedef struct {
    octofix_pose pose;
    bool is_in_map; /* the points are, from the pose's place on */
    const octofix_point *points;
    size_t count;
    octofix_scan_options options;
} scan;

/* Whether beams are many, or one is long. */
static bool is_large(const map *self, const scan *it) {
    const octofix_point here = {0, 0, 0}; /* the sensor in its own frame */
    if (it->count > FEW / 2) return true;
    for (size_t at = 0; at < it->count; at++)
        if (is_far(self, it->is_in_map ? it->pose.at : here, it->points[at])) return true;
    return false;
}

/* A Ctrl-C that came meanwhile becomes one that knows whether the scan is done. */
static PyObject *interrupted(bool is_done) {
    if (PyErr_ExceptionMatches(PyExc_KeyboardInterrupt)) {
        PyErr_Clear();
        PyObject *done = is_done ? Py_True : Py_False;
        Py_XDECREF(PyObject_CallFunctionObjArgs(python.interrupted, done, NULL));
    }
    return NULL;
}

static PyObject *do_scan(map *self, const scan *it) {
    octofix_counted counted = {0, 0};
    octofix_details named;
    uint32_t code;
    if (take_writing(self, NULL) < 0) return interrupted(false);
    PyThreadState *gil = give_gil(is_large(self, it));
    if (it->is_in_map)
        code = library.scan_in_map(&self->handle, &it->pose.at, it->points, it->count,
                                   &it->options, &counted, &named);
    else
        code = library.scan(&self->handle, &it->pose, it->points, it->count, &it->options,
                            &counted, &named);
    take_gil(gil);
    give_writing(self, NULL);
    if (code) return fail(code, named);
    PyObject *made = new_tuple(python.Counted,
                               Py_BuildValue("(KK)", (unsigned long long)counted.hits,
                                             (unsigned long long)counted.frees));
    if (made && PyErr_CheckSignals() == 0) return made;
    Py_XDECREF(made);
    return interrupted(true);
}

/* The place and the quaternion of a matrix that stands for both, a tuple; None where it is none. */
static PyObject *pose_of(PyObject *origin, PyObject *quaternion) {
    double three[3];
    if (origin && !quaternion && !is_row(origin, 3, three))
        return PyObject_CallFunctionObjArgs(python.pose, origin, NULL);
    Py_RETURN_NONE;
}

static PyObject *scan_at(map *self, PyObject **w, PyObject *origin, PyObject *quaternion) {
    turn by;
    points from;
    scan it = {.options = {.range = -1}};
    if (take_turn(&by, quaternion) < 0 || take_points(&from, w[0], "points", &by) < 0) return NULL;
    /* (the points are turned already, and four zeros are refused by the library) */
    it.pose.w = !by.is_none;
    it.points = from.at, it.count = from.count;
    PyObject *made = NULL;
    if (!(origin && take_point(&it.pose.at, origin, "origin") < 0) &&
        take_length(w[3], "range", &it.options.range) == 0 &&
        take_options(&it.options, w[4], w[5], w[6]) == 0)
        made = do_scan(self, &it);
    free_points(&from);
    return made;
}

static PyObject *map_scan(ARGUMENTS) {
    TAKE("scan", 1, 4, "points", "origin", "quaternion", "range", "hit", "miss", "lazy");
    PyObject *pose = pose_of(w[1], w[2]);
    if (!pose) return NULL;
    PyObject *made = pose == Py_None ? scan_at(self, w, w[1], w[2])
                                     : scan_at(self, w, PyTuple_GetItem(pose, 0),
                                               PyTuple_GetItem(pose, 1));
    Py_DECREF(pose);
    return made;
}

static PyObject *map_scan_from(ARGUMENTS) {
    TAKE("scan_from", 2, 3, "origin", "points", "range", "hit", "miss", "lazy");
    points from;
    scan it = {.is_in_map = true, .options = {.range = -1}};
    if (take_points(&from, w[1], "points", NULL) < 0) return NULL;
    it.points = from.at, it.count = from.count;
    PyObject *made = NULL;
    if (take_point(&it.pose.at, w[0], "origin") == 0 &&
        take_length(w[2], "range", &it.options.range) == 0 &&
        take_options(&it.options, w[3], w[4], w[5]) == 0)
        made = do_scan(self, &it);
    free_points(&from);
    return made;
}

/* A scan of whole nanometres, as buffers of int64: the points, and the place of the sensor. */
static PyObject *map_scan_nm(map *self, PyObject *args) {
    Py_buffer from, origin;
    long long range;
    PyObject *hit, *miss, *lazy, *made = NULL;
    if (!PyArg_ParseTuple(args, "y*y*LOOO", &from, &origin, &range, &hit, &miss, &lazy))
        return NULL;
    scan it = {.pose = {.w = 1}, .points = from.buf, .options = {.range = range}};
    it.count = (size_t)from.len / sizeof(octofix_point);
    if (origin.len == sizeof it.pose.at) {
        memcpy(&it.pose.at, origin.buf, sizeof it.pose.at);
        if (take_options(&it.options, hit, miss, lazy) == 0) made = do_scan(self, &it);
    } else {
        Py_XDECREF(PyObject_CallFunction(python.one_point, "s", "origin"));
    }
    PyBuffer_Release(&from);
    PyBuffer_Release(&origin);
    return made;
}

const PyMethodDef scan_methods[] = {
    FAST(scan,
         "scan($self, points, origin=(0, 0, 0), quaternion=(1, 0, 0, 0), range=None, *, hit=None, "
         "miss=None, lazy=False)\n--\n\n"
         "Does a scan, and answers `Counted`: hits the voxels where beams end, and frees those on\n"
         "the way.\n\n"
         "`points`, (n, 3), are in metres in the sensor's frame, which stands at `origin` and is\n"
         "turned by `quaternion` (w, x, y, z), of any length, or has a 4 x 4 matrix of both as\n"
         "`origin` alone; points are turned in double. `octofix.measured` has those of a cloud in\n"
         "which some aren't finite. A beam that is longer than `range` metres is cut there, and\n"
         "hits nothing. `hit` and `miss` are log-odds of this scan alone. A lazy scan leaves\n"
         "depths below 16 to `refresh`. The scan is done whole or refused: 4, 5, 6, 7 (`index`),\n"
         "8 (`index`, `cells`) or 23. A Ctrl-C that comes meanwhile is taken when it is done, as\n"
         "`Interrupted`."),
    FAST(scan_from,
         "scan_from($self, origin, points, range=None, *, hit=None, miss=None, lazy=False)\n--\n\n"
         "Does a scan of beams from `origin`, (3,), to `points`, (n, 3), both in metres in the\n"
         "frame of the map; else as `scan`, but that no quaternion can be refused (5)."),
    PRIVATE(scan_nm, METH_VARARGS),
    {0}};
