/* What calls are passed, and how they fail: words, numbers, lengths and turns. */
#include "native.h"

#include <math.h>

static const double NANOMETRES = 1e9, END = 1e16; /* the library takes nanometres below it */

/* -- words */

static int fail_word(const words *say, bool is_known, PyObject *name) {
    const char *why = is_known ? "multiple values for" : "an unexpected keyword";
    PyErr_Format(PyExc_TypeError, "%s() got %s argument '%U'", say->call, why, name);
    return -1;
}

static int take_named(const words *say, PyObject *name, PyObject *value, PyObject **to) {
    int at = 0;
    while (say->names[at] && PyUnicode_CompareWithASCIIString(name, say->names[at]) != 0) at++;
    if (!say->names[at] || to[at]) return fail_word(say, say->names[at] != NULL, name);
    to[at] = value;
    return 0;
}

int take_words(const words *say, PyObject *const *given, Py_ssize_t count, PyObject *names,
               PyObject **to) {
    for (int at = 0; say->names[at]; at++) to[at] = NULL;
    if (count > say->unnamed) {
        PyErr_Format(PyExc_TypeError, "%s() takes at most %d positional arguments (%zd given)",
                     say->call, say->unnamed, count);
        return -1;
    }
    for (Py_ssize_t at = 0; at < count; at++) to[at] = given[at];
    const Py_ssize_t named = names ? PyTuple_Size(names) : 0;
    for (Py_ssize_t at = 0; at < named; at++)
        if (take_named(say, PyTuple_GetItem(names, at), given[count + at], to) < 0) return -1;
    for (int at = 0; at < say->needed; at++) {
        if (to[at]) continue;
        PyErr_Format(PyExc_TypeError, "%s() missing required argument '%s'", say->call,
                     say->names[at]);
        return -1;
    }
    return 0;
}

/* -- numbers */

/* Whether it is a plain number. One that is too long, or of a class that makes a number of itself
 * in its own way, numpy sees to. */
bool is_number(PyObject *it, double *to) {
    if (PyFloat_CheckExact(it) || (PyObject *)Py_TYPE(it) == python.float64) {
        *to = PyFloat_AsDouble(it);
        return true;
    }
    int is_over = 0;
    if (!PyLong_CheckExact(it)) return false;
    *to = (double)PyLong_AsLongLongAndOverflow(it, &is_over);
    return !is_over;
}

Py_ssize_t size_of_row(PyObject *it) {
    return PyTuple_CheckExact(it) ? PyTuple_Size(it) : PyList_CheckExact(it) ? PyList_Size(it) : -1;
}

PyObject *item_of_row(PyObject *it, Py_ssize_t at) {
    return PyTuple_CheckExact(it) ? PyTuple_GetItem(it, at) : PyList_GetItem(it, at);
}

/* Whether it is a tuple or a list of so many plain numbers. */
bool is_row(PyObject *it, Py_ssize_t count, double *to) {
    if (size_of_row(it) != count) return false;
    for (Py_ssize_t at = 0; at < count; at++)
        if (!is_number(item_of_row(it, at), to + at)) return false;
    return true;
}

/* An integer of Python. A bool, and an integer of numpy, is none; an event is one. */
bool is_integer(PyObject *it, long long *to) {
    int is_over = 0;
    if (!PyLong_Check(it) || PyBool_Check(it)) return false;
    *to = PyLong_AsLongLongAndOverflow(it, &is_over);
    return !is_over;
}

bool is_plain_depth(PyObject *given, uint32_t *to) {
    long long depth = DEEPEST;
    if (given && !(is_integer(given, &depth) && depth >= 0 && depth <= DEEPEST)) return false;
    *to = (uint32_t)depth;
    return true;
}

int take_depth(PyObject *given, uint32_t *to) {
    if (is_plain_depth(given, to)) return 0;
    PyObject *depth = PyObject_CallFunctionObjArgs(python.depth, given, NULL);
    if (!depth) return -1;
    *to = (uint32_t)PyLong_AsUnsignedLong(depth);
    Py_DECREF(depth);
    return 0;
}

int take_flag(PyObject *given) { return given ? PyObject_IsTrue(given) : 0; }

/* A length in nanometres, and -1 where there is none. */
int take_length(PyObject *given, const char *what, int64_t *to) {
    *to = -1;
    if (!given || given == Py_None) return 0;
    if (PyFloat_CheckExact(given)) {
        const double scaled = PyFloat_AsDouble(given) * NANOMETRES;
        if (scaled >= 0 && scaled < END) {
            *to = llrint(scaled);
            return 0;
        }
    }
    PyObject *length = PyObject_CallFunction(python.length, "Os", given, what);
    if (!length) return -1;
    *to = PyLong_AsLongLong(length);
    Py_DECREF(length);
    return 0;
}

/* The options of a scan, but for its range. */
int take_options(octofix_scan_options *to, PyObject *hit, PyObject *miss, PyObject *lazy) {
    if ((hit && hit != Py_None) || (miss && miss != Py_None)) {
        PyObject *both = PyObject_CallFunctionObjArgs(python.own_odds, hit ? hit : Py_None,
                                                      miss ? miss : Py_None, NULL);
        if (!both) return -1;
        to->hit = (int32_t)PyLong_AsLong(PyTuple_GetItem(both, 0));
        to->miss = (int32_t)PyLong_AsLong(PyTuple_GetItem(both, 1));
        Py_DECREF(both);
    }
    const int is_lazy = take_flag(lazy);
    to->lazy = is_lazy > 0;
    return is_lazy < 0 ? -1 : 0;
}

/* -- turns */

static int take_quaternion(double four[4], PyObject *given) {
    if (is_row(given, 4, four) && isfinite(four[0]) && isfinite(four[1]) && isfinite(four[2]) &&
        isfinite(four[3]))
        return 0;
    PyObject *made = PyObject_CallFunctionObjArgs(python.quaternion, given, NULL);
    if (!made) return -1;
    const bool is_good = is_row(made, 4, four);
    Py_DECREF(made);
    if (is_good) return 0;
    PyErr_SetString(PyExc_SystemError, "a quaternion was made of no four numbers");
    return -1;
}

int take_turn(turn *to, PyObject *given) {
    double four[4] = {1, 0, 0, 0}, most = 0;
    to->is_turned = to->is_none = false;
    if (!given) return 0;
    if (take_quaternion(four, given) < 0) return -1;
    for (int at = 0; at < 4; at++) most = fabs(four[at]) > most ? fabs(four[at]) : most;
    to->is_none = most == 0;
    if (to->is_none) return 0;
    for (int at = 0; at < 4; at++) four[at] /= most;
    const double w = four[0], x = four[1], y = four[2], z = four[3];
    const double size = w * w + x * x + y * y + z * z;
    const double matrix[9] = {
        w * w + x * x - y * y - z * z, 2 * (x * y - w * z), 2 * (x * z + w * y),
        2 * (x * y + w * z), w * w - x * x + y * y - z * z, 2 * (y * z - w * x),
        2 * (x * z - w * y), 2 * (y * z + w * x), w * w - x * x - y * y + z * z,
    };
    to->is_turned = x != 0 || y != 0 || z != 0;
    for (int at = 0; at < 9; at++) to->matrix[at] = matrix[at] / size;
    return 0;
}

/* -- results */

PyObject *fail(uint32_t code, octofix_details named) {
    return PyObject_CallFunction(python.fail, "IKK", code, (unsigned long long)named.first,
                                 (unsigned long long)named.second);
}

PyObject *fail_row(uint32_t code, size_t index) {
    return PyObject_CallFunction(python.fail_row, "In", code, (Py_ssize_t)index);
}

/* A new array of numpy, and where its numbers stand for as long as somebody has it. The shape is
 * let go. */
PyObject *new_array(PyObject *shape, PyObject *kind, void **at) {
    if (!shape) return NULL;
    PyObject *made = PyObject_CallFunctionObjArgs(python.empty, shape, kind, NULL);
    Py_DECREF(shape);
    if (!made) return NULL;
    Py_buffer view;
    if (PyObject_GetBuffer(made, &view, PyBUF_WRITABLE) < 0) {
        Py_DECREF(made);
        return NULL;
    }
    *at = view.buf;
    PyBuffer_Release(&view);
    return made;
}

/* A named tuple of these items, which are let go. (Its class itself would make it in Python.) */
PyObject *new_tuple(PyObject *kind, PyObject *items) {
    if (!items) return NULL;
    PyObject *made = PyObject_CallFunctionObjArgs(python.new_tuple, kind, items, NULL);
    Py_DECREF(items);
    return made;
}
