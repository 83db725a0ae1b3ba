/* Points: rows of three numbers in metres, made whole nanometres. */
#include "native.h"

#include <math.h>
#include <stdlib.h>
#include <string.h>

static const double NANOMETRES = 1e9, END = 1e16; /* the library takes nanometres below it */

/* -- where rows stand */

static void begin_source(source *it) {
    it->view.obj = NULL, it->many = NULL, it->is_float = false;
}

void close_source(source *it) {
    if (it->view.obj) PyBuffer_Release(&it->view);
    free(it->many);
    it->view.obj = NULL, it->many = NULL;
}

/* Whether it is a plain row, or a plain row of them. (Nothing of Python runs here, so that none of
 * them changes meanwhile.) */
static bool is_plain(source *it, PyObject *given) {
    const Py_ssize_t count = size_of_row(given);
    if (count <= 0) return false;
    double *to = it->few;
    it->count = 1, it->row = 3 * sizeof(double), it->column = sizeof(double);
    it->first = (const char *)to;
    if (is_row(given, 3, to)) return true;
    if (count > FEW && !(to = it->many = malloc((size_t)count * 3 * sizeof(double)))) return false;
    it->count = (size_t)count, it->first = (const char *)to;
    for (Py_ssize_t at = 0; at < count; at++)
        if (!is_row(item_of_row(given, at), 3, to + 3 * at)) return false;
    return true;
}

/* What a buffer's format says of numbers in this machine's order: 'd', 'f' or another, and 0 where
 * there are several. (Numbers at odd addresses have a sign before.) */
static char kind_of(const char *format) {
    if (*format == '=' || *format == '@' || *format == '^') format++;
    return format[0] && format[1] ? 0 : format[0];
}

/* Whether it is an array of doubles or floats itself, and of no class made of that, as one with a
 * mask. */
static bool is_array(source *it, PyObject *given) {
    Py_buffer *view = &it->view;
    if ((PyObject *)Py_TYPE(given) != python.array) return false;
    if (PyObject_GetBuffer(given, view, PyBUF_STRIDES | PyBUF_FORMAT) < 0) {
        view->obj = NULL;
        PyErr_Clear();
        return false;
    }
    const char kind = kind_of(view->format);
    if (kind != 'd' && kind != 'f') return false;
    it->first = view->buf, it->is_float = kind == 'f';
    if (view->ndim == 1) {
        it->row = 0, it->column = view->strides[0], it->count = view->shape[0] == 3;
        return view->shape[0] == 3 || view->shape[0] == 0;
    }
    if (view->ndim != 2 || view->shape[1] != 3) return false;
    it->row = view->strides[0], it->column = view->strides[1], it->count = (size_t)view->shape[0];
    return true;
}

int open_source(source *it, PyObject *given, const char *what) {
    begin_source(it);
    if (is_plain(it, given) || is_array(it, given)) return 0;
    close_source(it);
    PyObject *rows = PyObject_CallFunction(python.rows, "Os", given, what);
    if (!rows) return -1;
    begin_source(it);
    const bool is_good = is_array(it, rows);
    Py_DECREF(rows); /* (the view keeps it) */
    if (is_good) return 0;
    close_source(it);
    PyErr_SetString(PyExc_SystemError, "numpy made no rows of doubles");
    return -1;
}

/* -- their points */

static inline bool put(double x, double y, double z, int64_t *to) {
    x *= NANOMETRES, y *= NANOMETRES, z *= NANOMETRES;
    if (!(fabs(x) < END && fabs(y) < END && fabs(z) < END)) return false; /* (or one is none) */
    to[0] = llrint(x), to[1] = llrint(y), to[2] = llrint(z);
    return true;
}

static inline bool put_turned(double x, double y, double z, const double *m, int64_t *to) {
    return put(x * m[0] + y * m[1] + z * m[2], x * m[3] + y * m[4] + z * m[5],
               x * m[6] + y * m[7] + z * m[8], to);
}

/* (a row may stand at any address) */
#define CONVERT(name, type)                                                                        \
    static size_t name(const char *from, Py_ssize_t row, Py_ssize_t column, size_t count,          \
                       const double *m, int64_t *to, size_t step) {                                \
        for (size_t at = 0; at < count; at++, from += row, to += step) {                           \
            type x, y, z;                                                                          \
            memcpy(&x, from, sizeof x);                                                            \
            memcpy(&y, from + column, sizeof y);                                                   \
            memcpy(&z, from + 2 * column, sizeof z);                                               \
            if (!(m ? put_turned(x, y, z, m, to) : put(x, y, z, to))) return at;                   \
        }                                                                                          \
        return count;                                                                              \
    }
CONVERT(convert_doubles, double)
CONVERT(convert_floats, float)

/* Two numbers at once. */
typedef double pair __attribute__((vector_size(16)));
typedef float float_pair __attribute__((vector_size(8)));
typedef uint64_t bits_pair __attribute__((vector_size(16)));

/* From 2^52 up to 2^53 the last bit of a double is worth 1. So a sum of ROUNDER and a number below
 * 2^51 is rounded to a whole number, halves to even, as llrint does it; and the first bits of each
 * other sum, which have its sign and exponent, aren't those of ROUNDER. */
static const double ROUNDER = 0x1.8p52;
enum { AFTER_EXPONENT = 52, AHEAD = 4096 };

/* Numbers that stand one after another, an even count of them; answers whether all are so small. */
#define CONVERT_PAIRS(name, type)                                                                  \
    static bool name(const char *from, size_t count, int64_t *to) {                                \
        const pair rounder = {ROUNDER, ROUNDER};                                                   \
        bits_pair differing = {0, 0};                                                              \
        for (size_t at = 0; at < count; at += 2, from += sizeof(type)) {                           \
            type metres;                                                                           \
            __builtin_prefetch(from + AHEAD);                                                      \
            memcpy(&metres, from, sizeof metres);                                                  \
            const pair sum = __builtin_convertvector(metres, pair) * NANOMETRES + rounder;         \
            const bits_pair rounded = (bits_pair)sum - (bits_pair)rounder;                         \
            memcpy(to + at, &rounded, sizeof rounded);                                             \
            differing |= (bits_pair)sum ^ (bits_pair)rounder;                                      \
        }                                                                                          \
        return (uint64_t)(differing[0] | differing[1]) >> AFTER_EXPONENT == 0;                     \
    }
CONVERT_PAIRS(convert_doubles_by_two, pair)
CONVERT_PAIRS(convert_floats_by_two, float_pair)

/* Some of the rows as whole nanometres, turned where `by` is given, each `step` numbers after the
 * last; answers how many there are before the first that is no point. */
size_t convert(const source *it, size_t start, size_t count, const turn *by, void *to,
               size_t step) {
    const char *from = it->first + (Py_ssize_t)start * it->row;
    const double *matrix = by && by->is_turned ? by->matrix : NULL;
    const Py_ssize_t size = it->is_float ? sizeof(float) : sizeof(double);
    size_t done = count - count % 2;
    if (matrix || step != 3 || it->column != size || it->row != 3 * size ||
        !(it->is_float ? convert_floats_by_two : convert_doubles_by_two)(from, 3 * done, to))
        done = 0;
    return done + (it->is_float ? convert_floats : convert_doubles)(
                      from + (Py_ssize_t)done * it->row, it->row, it->column, count - done, matrix,
                      (int64_t *)to + done * step, step);
}

int fail_points(const char *what, size_t index) {
    Py_XDECREF(PyObject_CallFunction(python.fail_points, "sn", what, (Py_ssize_t)index));
    return -1;
}

int convert_all(const source *it, const char *what, const turn *by, void *to, size_t step) {
    PyThreadState *gil = give_gil(it->count > SHORT);
    const size_t good = convert(it, 0, it->count, by, to, step);
    take_gil(gil);
    return good == it->count ? 0 : fail_points(what, good);
}

/* Looks whether all rows are points. */
int check_points(const source *it, const char *what) {
    octofix_point few[FEW];
    for (size_t start = 0; start < it->count; start += FEW) {
        const size_t count = least(FEW, it->count - start);
        const size_t good = convert(it, start, count, NULL, few, 3);
        if (good < count) return fail_points(what, start + good);
    }
    return 0;
}

/* Room for so many things, in a place for a few, or on the heap. */
void *room_for(void *few, size_t most, size_t count, size_t size) {
    if (count <= most) return few;
    /* (an array may say of one row that it is any number of them) */
    void *made = count <= PTRDIFF_MAX / size ? malloc(count * size) : NULL;
    if (!made) PyErr_NoMemory();
    return made;
}

void free_points(points *it) {
    if (it->at != it->few) free(it->at);
}

int take_points(points *it, PyObject *given, const char *what, const turn *by) {
    source from;
    if (open_source(&from, given, what) < 0) return -1;
    it->count = from.count;
    it->at = room_for(it->few, FEW, from.count, sizeof(octofix_point));
    int failed = it->at ? convert_all(&from, what, by, it->at, 3) : -1;
    close_source(&from);
    if (failed) free_points(it);
    return failed;
}

int take_point(octofix_point *to, PyObject *given, const char *what) {
    points it;
    if (take_points(&it, given, what, NULL) < 0) return -1;
    const bool is_one = it.count == 1;
    if (is_one) *to = it.at[0];
    free_points(&it);
    if (!is_one) Py_XDECREF(PyObject_CallFunction(python.one_point, "s", what));
    return is_one ? 0 : -1;
}

int take_corners(octofix_point to[2], PyObject *low, PyObject *high) {
    return take_point(to, low, "low") < 0 ? -1 : take_point(to + 1, high, "high");
}

/* Whether the way from one point to another takes long. */
bool is_far(const map *self, octofix_point one, octofix_point other) {
    const int64_t most = LONG_WAY * self->edge;
    return llabs(other.x - one.x) > most || llabs(other.y - one.y) > most ||
           llabs(other.z - one.z) > most;
}
