/* The lock of a map: many calls that ask hold it at once, or one alone that changes the map.
 *
 * What it counts is read and written with the GIL alone, so it costs nothing where nobody waits.
 * While a lock is held no object of Python is made or let go, and no code of Python runs, so that
 * nothing interrupts there, and no finalizer asks the map. A short call keeps the GIL throughout; a
 * long one gives it away while it holds the lock.
 *
 * Who has to wait does so in turns, without the GIL. Between two of them this thread takes a step
 * of Python, before which it does what interrupts it: the handlers of signals, which may use the
 * map, and what another thread raises in it.
 */
#include "native.h"

#include <linux/futex.h>
#include <limits.h>
#include <stdatomic.h>
#include <sys/syscall.h>
#include <time.h>
#include <unistd.h>

static map *all_maps;
static int waiting;             /* threads */
static atomic_uint rings;       /* how often something was given back while one waited */
static const struct timespec TURN = {.tv_nsec = 50000000};

void add_map(map *self) {
    self->next = all_maps, self->place = &all_maps;
    if (all_maps) all_maps->place = &self->next;
    all_maps = self;
}

void remove_map(map *self) {
    *self->place = self->next;
    if (self->next) self->next->place = self->place;
}

static void ring(void) {
    if (waiting == 0) return;
    atomic_fetch_add(&rings, 1);
    syscall(SYS_futex, &rings, FUTEX_WAKE_PRIVATE, INT_MAX, NULL, NULL, 0);
}

/* Waits until something is given back, a signal comes, or for a turn. */
static void wait_a_turn(void) {
    const unsigned before = atomic_load(&rings);
    waiting++;
    PyThreadState *gil = give_gil(true);
    syscall(SYS_futex, &rings, FUTEX_WAIT_PRIVATE, before, &TURN, NULL, 0);
    take_gil(gil);
    waiting--;
}

static int let_interrupts_in(void) {
    PyObject *came = PyObject_CallObject(python.step, NULL);
    Py_XDECREF(came);
    return came ? 0 : -1;
}

static int expect_whole(const map *it) {
    if (!it || !it->is_lost) return 0;
    PyErr_SetString(PyExc_RuntimeError, "the process was forked while another thread changed this "
                                        "map, so it isn't whole here");
    return -1;
}

int take_reading(map *self) {
    while (self->is_changing || self->waiting_writers) {
        wait_a_turn();
        if (let_interrupts_in() < 0) return -1;
    }
    if (expect_whole(self) < 0) return -1;
    self->readers++;
    return 0;
}

void give_reading(map *self) {
    self->readers--;
    ring();
}

static bool is_free(const map *it) { return !it || (!it->is_changing && it->readers == 0); }

static void count_waiting(map *one, map *two, int more) {
    one->waiting_writers += more;
    if (two) two->waiting_writers += more;
}

/* The lock of a map, or those of two at once, of which the second may be NULL. New readers stay out
 * while this waits, but for the handlers of signals in between. */
int take_writing(map *one, map *two) {
    while (!(is_free(one) && is_free(two))) {
        count_waiting(one, two, 1);
        wait_a_turn();
        count_waiting(one, two, -1);
        if (!(is_free(one) && is_free(two)) && let_interrupts_in() < 0) {
            ring(); /* (readers may wait for this one) */
            return -1;
        }
    }
    if (expect_whole(one) < 0 || expect_whole(two) < 0) return -1;
    one->is_changing = true;
    if (two) two->is_changing = true;
    return 0;
}

void give_writing(map *one, map *two) {
    one->is_changing = false;
    if (two) two->is_changing = false;
    ring();
}

/* Holds the lock, from a byte that is written to one descriptor on until one is read from another.
 * (For tests, in place of calls that take long.) */
PyObject *map_hold(map *self, PyObject *args) {
    int begun, end, is_changing;
    char byte = 0;
    if (!PyArg_ParseTuple(args, "iip", &begun, &end, &is_changing)) return NULL;
    if ((is_changing ? take_writing(self, NULL) : take_reading(self)) < 0) return NULL;
    PyThreadState *gil = give_gil(true);
    const bool is_good = write(begun, &byte, 1) == 1 && read(end, &byte, 1) == 1;
    take_gil(gil);
    is_changing ? give_writing(self, NULL) : give_reading(self);
    return is_good ? PyBool_FromLong(1) : PyErr_SetFromErrno(PyExc_OSError);
}

/* In the child of a fork, where only this thread lives on, and no other can give a lock back. */
PyObject *after_fork(PyObject *Py_UNUSED(module), PyObject *Py_UNUSED(none)) {
    waiting = 0;
    for (map *it = all_maps; it; it = it->next) {
        it->is_lost |= it->is_changing;
        it->is_changing = false;
        it->readers = it->waiting_writers = 0;
    }
    Py_RETURN_NONE;
}
