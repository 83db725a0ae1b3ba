/* Questions about points and ways: values, classes, keys, and what stops a way. */
#include "native.h"

#include <stdlib.h>

enum { PART = 1 << 15 }; /* points that are asked for at once, so that they stay in the cache */
enum { UNKNOWN_CLASS = 0, FREE_CLASS = 1, OCCUPIED_CLASS = 2 };
enum { CLEAR_KIND = 0, HIT_KIND = 1, UNKNOWN_KIND = 2 };
static const int32_t UNKNOWN_VALUE = INT32_MIN;
static const int32_t ORIGIN_KEY = 1 << 15; /* of the voxel that begins at the origin */

/* -- values and classes of many points */

static int class_of(octofix_answer it, int32_t threshold) {
    return it.code ? UNKNOWN_CLASS : it.value >= threshold ? OCCUPIED_CLASS : FREE_CLASS;
}

static bool is_refused(octofix_answer it) {
    return (it.code != OCTOFIX_DONE) & (it.code != OCTOFIX_UNKNOWN);
}

/* A question about the points of a source, and what came of it. */
typedef struct {
    const source *from;
    uint32_t depth;
    bool of_classes; /* and not of values */
    void *to;
    int32_t threshold;
    size_t good; /* rows before the first that is no point */
    uint32_t code;
    size_t refused; /* the row that the code is about, or all rows */
} question;

/* (both in a form that the compiler does several answers of at once) */
static bool write_values(int32_t *restrict to, const octofix_answer *restrict answers,
                         size_t count) {
    uint32_t is_any_refused = 0;
    for (size_t at = 0; at < count; at++) {
        to[at] = answers[at].code ? UNKNOWN_VALUE : answers[at].value;
        is_any_refused |= is_refused(answers[at]);
    }
    return is_any_refused;
}

static bool write_classes(int8_t *restrict to, const octofix_answer *restrict answers,
                          size_t count, int32_t threshold) {
    uint32_t is_any_refused = 0;
    for (size_t at = 0; at < count; at++) {
        to[at] = (int8_t)class_of(answers[at], threshold);
        is_any_refused |= is_refused(answers[at]);
    }
    return is_any_refused;
}

/* Writes what the points of a part are answered, and finds the first one that is refused. */
static void write_part(question *it, size_t start, const octofix_answer *answers, size_t count) {
    const bool is_any_refused =
        it->of_classes ? write_classes((int8_t *)it->to + start, answers, count, it->threshold)
                       : write_values((int32_t *)it->to + start, answers, count);
    if (!is_any_refused) return;
    size_t at = 0;
    while (!is_refused(answers[at])) at++;
    it->code = answers[at].code, it->refused = start + at;
}

/* Asks for all of them, part after part. Where a row is no point it matters more than a refusal, so
 * the rest is looked through for one. */
static void ask_parts(map *self, question *it, octofix_point *places, octofix_answer *answers,
                      size_t room) {
    octofix_settings settings = {0};
    it->code = library.settings_of(&self->handle, &settings);
    it->threshold = settings.odds.thr;
    it->good = it->refused = it->from->count;
    for (size_t start = 0; start < it->from->count; start += room) {
        const size_t count = least(room, it->from->count - start);
        const size_t good = convert(it->from, start, count, NULL, places, 3);
        if (good < count) {
            it->good = start + good;
            return;
        }
        if (it->code == OCTOFIX_DONE)
            it->code = library.get_all(&self->handle, places, count, it->depth, answers, count);
        if (it->code == OCTOFIX_DONE) write_part(it, start, answers, count);
    }
}

static int ask_all(map *self, question *it) {
    octofix_point few_places[FEW], *places;
    octofix_answer few_answers[FEW], *answers = few_answers;
    const size_t count = it->from->count, room = count < PART ? count : PART;
    if (!(places = room_for(few_places, FEW, room, sizeof *places))) return -1;
    int failed = !(answers = room_for(few_answers, FEW, room, sizeof *answers)) ||
                 take_reading(self) < 0;
    if (!failed) {
        PyThreadState *gil = give_gil(count > SHORT);
        ask_parts(self, it, places, answers, room);
        take_gil(gil);
        give_reading(self);
    }
    if (places != few_places) free(places);
    if (answers != few_answers) free(answers);
    return failed ? -1 : 0;
}

static PyObject *answer_all(map *self, PyObject **w, PyObject *kind, bool of_classes) {
    source from;
    PyObject *made = NULL;
    if (open_source(&from, w[0], "points") < 0) return NULL;
    question it = {.from = &from, .of_classes = of_classes};
    /* (points that are none come before a depth that is none) */
    bool is_good = is_plain_depth(w[1], &it.depth) ||
                   (check_points(&from, "points") == 0 && take_depth(w[1], &it.depth) == 0);
    if (is_good) made = new_array(PyLong_FromSize_t(from.count), kind, &it.to);
    is_good = made && ask_all(self, &it) == 0;
    close_source(&from);
    if (is_good && it.good == from.count && it.code == OCTOFIX_DONE) return made;
    Py_XDECREF(made);
    if (!is_good) return NULL;
    if (it.good < from.count) fail_points("points", it.good);
    else if (it.refused < from.count) fail_row(it.code, it.refused);
    else fail(it.code, NO_DETAILS);
    return NULL;
}

static PyObject *map_get(ARGUMENTS) {
    TAKE("get", 1, 2, "points", "depth");
    return answer_all(self, w, python.int32, false);
}

static PyObject *map_classes(ARGUMENTS) {
    TAKE("classes", 1, 2, "points", "depth");
    return answer_all(self, w, python.int8, true);
}

/* -- of one point */

static int answer_one(map *self, PyObject **w, octofix_answer *to, octofix_settings *settings) {
    octofix_point at;
    uint32_t depth;
    if (take_point(&at, w[0], "point") < 0 || take_depth(w[1], &depth) < 0) return -1;
    if (take_reading(self) < 0) return -1;
    to->code = library.get(&self->handle, &at, depth, &to->value);
    if (settings) library.settings_of(&self->handle, settings);
    give_reading(self);
    if (!is_refused(*to)) return 0;
    fail(to->code, (octofix_details){to->code == OCTOFIX_OUTSIDE, 0});
    return -1;
}

static PyObject *map_value_at(ARGUMENTS) {
    octofix_answer it;
    TAKE("value_at", 1, 2, "point", "depth");
    if (answer_one(self, w, &it, NULL) < 0) return NULL;
    if (it.code) Py_RETURN_NONE;
    return PyLong_FromLong(it.value);
}

static PyObject *member(PyObject *of_class, Py_ssize_t at) {
    PyObject *found = PyTuple_GetItem(of_class, at);
    Py_XINCREF(found);
    return found;
}

static PyObject *map_class_at(ARGUMENTS) {
    octofix_answer it;
    octofix_settings settings = {0};
    TAKE("class_at", 1, 2, "point", "depth");
    if (answer_one(self, w, &it, &settings) < 0) return NULL;
    return member(python.classes, class_of(it, settings.odds.thr));
}

/* -- ways */

static int kind_of(uint32_t code) {
    return code == OCTOFIX_CLEAR ? CLEAR_KIND : code ? UNKNOWN_KIND : HIT_KIND;
}

static bool is_stop(uint32_t code) {
    return code == OCTOFIX_DONE || code == OCTOFIX_UNKNOWN || code == OCTOFIX_CLEAR;
}

/* Ways, and what stops them. */
typedef struct {
    size_t count;
    octofix_segment few[FEW], *at;
    octofix_stop few_stops[FEW], *stops;
} ways;

static void free_ways(ways *it) {
    if (it->at != it->few) free(it->at);
    if (it->stops != it->few_stops) free(it->stops);
}

/* Puts ends beside the origins, of which one, or one of the ends, may stand for all. */
static int join(ways *it, const points *origins, const source *ends) {
    const size_t first = origins->count, last = ends->count, most = first > last ? first : last;
    if (!(it->at = room_for(it->few, FEW, most, sizeof *it->at))) return -1;
    if (convert_all(ends, "ends", NULL, &it->at->end, sizeof *it->at / sizeof(int64_t)) < 0)
        return -1;
    if (first != last && first != 1 && last != 1) {
        PyErr_Format(PyExc_ValueError, "there are %zu origins, and %zu ends", first, last);
        return -1;
    }
    it->count = first == 1 ? last : first;
    for (size_t at = 0; at < it->count; at++) {
        it->at[at].origin = origins->at[first == 1 ? 0 : at];
        if (last == 1) it->at[at].end = it->at->end;
    }
    return 0;
}

static int take_ways(ways *it, PyObject *origins, PyObject *ends) {
    points first;
    source last;
    it->count = 0, it->at = it->few, it->stops = it->few_stops;
    if (take_points(&first, origins, "origins", NULL) < 0) return -1;
    int failed = open_source(&last, ends, "ends");
    if (!failed) {
        failed = join(it, &first, &last);
        close_source(&last);
    }
    free_points(&first);
    return failed;
}

static int ask_ways(map *self, ways *it, bool ignores_unknown) {
    if (!(it->stops = room_for(it->few_stops, FEW, it->count, sizeof *it->stops))) return -1;
    if (take_reading(self) < 0) return -1;
    const bool is_long = it->count == 1 ? is_far(self, it->at->origin, it->at->end)
                                        : it->count > FEW;
    PyThreadState *gil = give_gil(is_long);
    const uint32_t code = library.cast_all(&self->handle, it->at, it->count, ignores_unknown,
                                           it->stops, it->count);
    take_gil(gil);
    give_reading(self);
    if (code) fail(code, NO_DETAILS);
    return code ? -1 : 0;
}

static int write_stops(const ways *it, int8_t *kinds, octofix_key *keys) {
    for (size_t at = 0; at < it->count; at++) {
        const octofix_stop *stop = it->stops + at;
        if (!is_stop(stop->code)) {
            fail_row(stop->code, at);
            return -1;
        }
        kinds[at] = (int8_t)kind_of(stop->code);
        keys[at] = stop->key;
    }
    return 0;
}

static PyObject *map_cast(ARGUMENTS) {
    TAKE("cast", 2, 3, "origins", "ends", "ignore_unknown");
    ways it;
    int ignores;
    void *kind_at = NULL, *key_at = NULL;
    PyObject *kinds = NULL, *keys = NULL, *made = NULL;
    if (take_ways(&it, w[0], w[1]) == 0 && (ignores = take_flag(w[2])) >= 0 &&
        (kinds = new_array(PyLong_FromSize_t(it.count), python.int8, &kind_at)) &&
        (keys = new_array(Py_BuildValue("(ni)", (Py_ssize_t)it.count, 3), python.uint16,
                          &key_at)) &&
        ask_ways(self, &it, ignores) == 0 && write_stops(&it, kind_at, key_at) == 0)
        made = new_tuple(python.Casts, PyTuple_Pack(2, kinds, keys));
    Py_XDECREF(kinds);
    Py_XDECREF(keys);
    free_ways(&it);
    return made;
}

static PyObject *map_stop_at(ARGUMENTS) {
    TAKE("stop_at", 2, 3, "origin", "end", "ignore_unknown");
    octofix_point origin, end;
    octofix_key key = {0};
    octofix_details named;
    int ignores;
    if (take_point(&origin, w[0], "origin") < 0 || take_point(&end, w[1], "end") < 0) return NULL;
    if ((ignores = take_flag(w[2])) < 0 || take_reading(self) < 0) return NULL;
    PyThreadState *gil = give_gil(is_far(self, origin, end));
    const uint32_t code = library.cast(&self->handle, &origin, &end, ignores, &key, &named);
    take_gil(gil);
    give_reading(self);
    if (!is_stop(code)) return fail(code, named);
    PyObject *kind = PyTuple_GetItem(python.kinds, kind_of(code));
    if (!kind) return NULL;
    if (code == OCTOFIX_CLEAR)
        return new_tuple(python.Stop, PyTuple_Pack(2, kind, Py_None));
    return new_tuple(python.Stop, Py_BuildValue("(O(HHH))", kind, key.x, key.y, key.z));
}

/* -- keys, for which the map itself isn't asked */

static int32_t key_of(int64_t nanometres, int64_t edge) {
    const int64_t voxel = nanometres / edge - (nanometres % edge < 0);
    return voxel < -ORIGIN_KEY || voxel >= ORIGIN_KEY ? -1 : (int32_t)voxel + ORIGIN_KEY;
}

static size_t write_keys(const points *from, int64_t edge, uint16_t (*to)[3]) {
    for (size_t at = 0; at < from->count; at++) {
        const octofix_point *it = from->at + at;
        const int32_t keys[3] = {key_of(it->x, edge), key_of(it->y, edge), key_of(it->z, edge)};
        for (int axis = 0; axis < 3; axis++) {
            if (keys[axis] < 0) return at;
            to[at][axis] = (uint16_t)keys[axis];
        }
    }
    return from->count;
}

static PyObject *map_keys(ARGUMENTS) {
    TAKE("keys", 1, 1, "points");
    points from;
    void *to;
    if (!self->handle.is_open) return fail(OCTOFIX_CLOSED, NO_DETAILS);
    if (take_points(&from, w[0], "points", NULL) < 0) return NULL;
    PyObject *shape = Py_BuildValue("(ni)", (Py_ssize_t)from.count, 3);
    PyObject *made = new_array(shape, python.uint16, &to);
    if (made) {
        PyThreadState *gil = give_gil(from.count > SHORT);
        const size_t good = write_keys(&from, self->edge, to);
        take_gil(gil);
        if (good < from.count) {
            Py_CLEAR(made);
            fail_row(OCTOFIX_OUTSIDE, good);
        }
    }
    free_points(&from);
    return made;
}

const PyMethodDef question_methods[] = {
    FAST(get,
         "get($self, points, depth=16)\n--\n\n"
         "The values at `points`, (n, 3) in metres, int32 (n,), and `UNKNOWN` where nothing is\n"
         "known.\n\n"
         "At a depth below 16 it is the largest known value in the block around the point.\n"
         "Refused: 24 (`index`), 25, and 22 where the map is stale and the depth is below 16."),
    FAST(classes,
         "classes($self, points, depth=16)\n--\n\n"
         "The `VoxelClass` at `points`, int8 (n,): that of the value that `get` answers."),
    FAST(value_at,
         "value_at($self, point, depth=16)\n--\n\n"
         "The value at one point, (3,) in metres, as an int, or None where nothing is known.\n\n"
         "Refused as `get`, with `point` in place of `index`."),
    FAST(class_at,
         "class_at($self, point, depth=16)\n--\n\n"
         "The `VoxelClass` at one point, (3,) in metres. Refused as `value_at`."),
    FAST(cast,
         "cast($self, origins, ends, ignore_unknown=False)\n--\n\n"
         "What stops the straight way from each of `origins` to its end first, as `Casts`.\n\n"
         "Both are (n, 3) in metres, or one of them (3,), which then stands for all. An occupied\n"
         "voxel stops a way, and so does an unknown one unless `ignore_unknown`. Refused: 24\n"
         "(`index`)."),
    FAST(stop_at,
         "stop_at($self, origin, end, ignore_unknown=False)\n--\n\n"
         "What stops one way first, from point to point, (3,) each in metres: a `Stop`.\n\n"
         "As `cast` of one way. Refused: 24 (`point`: 1 the origin, 2 the end)."),
    FAST(keys,
         "keys($self, points)\n--\n\n"
         "The keys of the voxels that hold `points`, uint16 (n, 3). Refused: 24 (`index`)."),
    {0}};
