/* The module octofix._native: the class Map, which octofix.Map is made of. */
#include "native.h"

#include <string.h>

library_calls library;
python_objects python;
static PyTypeObject *map_type;
static bool is_set_up;

bool is_map(PyObject *it) { return PyObject_TypeCheck(it, map_type); }

/* -- a map comes and goes */

static PyObject *map_new(PyTypeObject *type, PyObject *Py_UNUSED(args),
                         PyObject *Py_UNUSED(named)) {
    if (!is_set_up) {
        PyErr_SetString(PyExc_RuntimeError, "octofix._native is set up by octofix");
        return NULL;
    }
    map *made = (map *)((allocfunc)PyType_GetSlot(type, Py_tp_alloc))(type, 0); /* all zeros */
    if (made) add_map(made);
    return (PyObject *)made;
}

/* Nobody else has the map then. (One that is lost isn't whole, and can't be closed.) */
static void map_dealloc(map *self) {
    PyTypeObject *type = Py_TYPE(self);
    remove_map(self);
    if (!self->is_lost) {
        PyThreadState *gil = give_gil(self->handle.is_open);
        library.close(&self->handle);
        take_gil(gil);
    }
    ((freefunc)PyType_GetSlot(type, Py_tp_free))(self);
    Py_DECREF(type);
}

static PyObject *map_open(map *self, PyObject *args) {
    octofix_odds odds;
    unsigned long long groups, cells;
    octofix_details named;
    long long edge;
    if (!PyArg_ParseTuple(args, "L(iiiii)(KK)", &edge, &odds.hit, &odds.miss, &odds.min, &odds.max,
                          &odds.thr, &groups, &cells))
        return NULL;
    const octofix_limits limits = {groups, cells};
    if (take_writing(self, NULL) < 0) return NULL;
    const uint32_t code = library.open(&self->handle, edge, &odds, &limits, &named);
    if (code == OCTOFIX_DONE) self->edge = edge;
    give_writing(self, NULL);
    if (code) return fail(code, named);
    Py_RETURN_NONE;
}

static PyObject *map_close(map *self, PyObject *Py_UNUSED(none)) {
    if (take_writing(self, NULL) < 0) return NULL;
    PyThreadState *gil = give_gil(true);
    library.close(&self->handle);
    take_gil(gil);
    give_writing(self, NULL);
    Py_RETURN_NONE;
}

/* A map of the same class that is equal in all, without what a class of a program has set. (While
 * the GIL is given away nobody sees the handle of the copy.) */
static PyObject *map_copied(map *self, PyObject *Py_UNUSED(none)) {
    octofix_map copy = {0};
    PyObject *made = map_new(Py_TYPE(self), NULL, NULL);
    if (!made || take_reading(self) < 0) {
        Py_XDECREF(made);
        return NULL;
    }
    PyThreadState *gil = give_gil(true);
    const uint32_t code = library.copy(&self->handle, &copy);
    take_gil(gil);
    ((map *)made)->handle = copy;
    ((map *)made)->edge = self->edge;
    give_reading(self);
    if (code == OCTOFIX_DONE) return made;
    Py_DECREF(made);
    return fail(code, NO_DETAILS);
}

static PyObject *map_closed(map *self, void *Py_UNUSED(none)) {
    return PyBool_FromLong(!self->handle.is_open);
}

static PyObject *map_resolution_nm(map *self, void *Py_UNUSED(none)) {
    return PyLong_FromLongLong(self->edge);
}

static const PyMethodDef own_methods[] = {
    PRIVATE(open, METH_VARARGS),
    PRIVATE(hold, METH_VARARGS),
    PRIVATE(copied, METH_NOARGS),
    PLAIN(close, METH_NOARGS,
          "close($self)\n--\n\n"
          "Gives the map's memory back, once the calls of other threads are done.\n\n"
          "A second close does nothing."),
    {0}};
static PyGetSetDef map_fields[] = {
    {"closed", (getter)map_closed, NULL, "Whether the map is closed.", NULL},
    {"resolution_nm", (getter)map_resolution_nm, NULL, "The edge of a voxel in nanometres.", NULL},
    {0}};

/* -- the module */

/* Where a call of the library is, by its name. */
static int find(PyObject *places, const char *name, void *to) {
    PyObject *place = PyDict_GetItemString(places, name);
    void *at = place ? PyLong_AsVoidPtr(place) : NULL;
    if (!at) {
        if (!PyErr_Occurred()) PyErr_Format(PyExc_ImportError, "no call %s is given", name);
        return -1;
    }
    memcpy(to, &at, sizeof at);
    return 0;
}

/* Takes where the calls of the library are, by their names, and all that is wanted of Python. */
static PyObject *setup(PyObject *Py_UNUSED(module), PyObject *args) {
    PyObject *places, *namespace;
    if (!PyArg_ParseTuple(args, "O!O", &PyDict_Type, &places, &namespace)) return NULL;
#define FIND(name)                                                                                 \
    if (find(places, #name, &library.name) < 0) return NULL;
    LIBRARY_CALLS(FIND)
#define KEEP(name)                                                                                 \
    if (!(python.name = PyObject_GetAttrString(namespace, #name))) return NULL;
    PYTHON_OBJECTS(KEEP)
    is_set_up = true;
    Py_RETURN_NONE;
}

/* The names of the library's calls that this module needs. */
static PyObject *calls(PyObject *Py_UNUSED(module), PyObject *Py_UNUSED(none)) {
    static const char *const names[] = {
#define NAME(name) #name,
        LIBRARY_CALLS(NAME)};
    PyObject *made = PyList_New(0);
    for (size_t at = 0; made && at < sizeof names / sizeof *names; at++) {
        PyObject *name = PyUnicode_FromString(names[at]);
        if (!name || PyList_Append(made, name) < 0) Py_CLEAR(made);
        Py_XDECREF(name);
    }
    return made;
}

static PyMethodDef functions[] = {{"calls", calls, METH_NOARGS, NULL},
                                  {"setup", setup, METH_VARARGS, NULL},
                                  {"ray", ray, METH_VARARGS, NULL},
                                  {"after_fork", after_fork, METH_NOARGS, NULL},
                                  {0}};

/* All methods of a map; the type keeps the array. */
static PyMethodDef *map_methods(void) {
    static PyMethodDef all[64];
    static const PyMethodDef *const parts[] = {own_methods, question_methods, edit_methods,
                                               scan_methods, list_methods};
    size_t count = 0;
    for (size_t part = 0; part < sizeof parts / sizeof *parts; part++)
        for (const PyMethodDef *it = parts[part]; it->ml_name; it++) all[count++] = *it;
    return all;
}

static int add_type(PyObject *module) {
    PyType_Slot slots[] = {{Py_tp_new, map_new},
                           {Py_tp_dealloc, map_dealloc},
                           {Py_tp_methods, map_methods()},
                           {Py_tp_getset, map_fields},
                           {0, NULL}};
    PyType_Spec spec = {"octofix._native.Map", sizeof(map), 0,
                        Py_TPFLAGS_DEFAULT | Py_TPFLAGS_BASETYPE, slots};
    PyObject *type = PyType_FromSpec(&spec);
    if (!type) return -1;
    map_type = (PyTypeObject *)type;
    Py_INCREF(type);
    return PyModule_AddObject(module, "Map", type);
}

static int begin(PyObject *module) {
    if (PyInterpreterState_GetID(PyInterpreterState_Get()) != 0) {
        PyErr_SetString(PyExc_ImportError, "octofix works in the main interpreter alone");
        return -1;
    }
    if (add_type(module) < 0 || PyModule_AddFunctions(module, region_functions) < 0) return -1;
    if (PyModule_AddStringConstant(module, "version", NATIVE_VERSION) < 0) return -1;
    return PyModule_AddStringConstant(module, "sources", NATIVE_SOURCES);
}

static PyModuleDef_Slot slots[] = {{Py_mod_exec, begin}, {0, NULL}};
static PyModuleDef definition = {PyModuleDef_HEAD_INIT, "octofix._native", NULL, 0, functions,
                                 slots, NULL, NULL, NULL};

PyMODINIT_FUNC PyInit__native(void) { return PyModuleDef_Init(&definition); }
