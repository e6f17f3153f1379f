/* Open property lists. */
#include "extension.h"

#include <stdlib.h>
#include <string.h>
#include <unistd.h>

/* Fewer keys are not worth sorting: a key is found among them as fast as by binary search. */
#define MANY 32
/* To sort the keys of a file takes as long as to compare so many keys for every two of its objects, a key and its
   value. */
#define SORTING 13
/* How a certificate with sorted keys begins. */
#define KEYED "bplcert2"
/* The length of the trailer of a file. */
#define TRAILER 32

int handle_wait(Handle *self)
{
    int process;

    while ((process = atomic_load_explicit(&self->busy, memory_order_acquire)) != 0) {
        PyThreadState *thread;

        if (process != (int)getpid())
            return raise_fault("Error", "(s)", "the process was forked while a call read this property list");
        thread = PyEval_SaveThread();
        PyThread_acquire_lock(self->lock, WAIT_LOCK);
        PyThread_release_lock(self->lock);
        PyEval_RestoreThread(thread);
    }
    return 0;
}

/* Makes the lock of this process. In the child of a fork, a thread of the parent may have held that of the parent. */
static int handle_lock(Handle *self, int process)
{
    PyThread_type_lock lock = PyThread_allocate_lock();

    if (lock == NULL) {
        PyErr_NoMemory();
        return -1;
    }
    if (self->lock)
        PyThread_free_lock(self->lock);
    self->lock = lock;
    self->process = process;
    return 0;
}

PyThreadState *handle_begin(Handle *self)
{
    int process = (int)getpid();

    if (handle_ready(self) < 0 || (process != self->process && handle_lock(self, process) < 0))
        return NULL;
    /* Whoever held it last lets go of it without the GIL. */
    PyThread_acquire_lock(self->lock, WAIT_LOCK);
    atomic_store_explicit(&self->busy, process, memory_order_relaxed);
    return PyEval_SaveThread();
}

void handle_end(Handle *self, PyThreadState *thread)
{
    atomic_store_explicit(&self->busy, 0, memory_order_release);
    PyThread_release_lock(self->lock);
    PyEval_RestoreThread(thread);
}

static Handle *handle_new(State *state, PyObject *class)
{
    Handle *self = instance_of(class);

    if (self == NULL)
        return NULL;
    self->state = state;
    if (handle_lock(self, (int)getpid()) < 0) {
        Py_DECREF(self);
        return NULL;
    }
    return self;
}

/* Opens the handle of the library. Releases the GIL, since nobody else has this property list yet. */
static bplist_status handle_fill(Handle *self, const Source *certificate, int is_sorted, bplist_verdict *verdict)
{
    const Source *source = &self->source;
    bplist_status status;
    PyThreadState *thread = PyEval_SaveThread();

    if (certificate->owner)
        status = bplist_open_certified(&self->handle, source->file, source->length, certificate->file, certificate->length,
                                       is_sorted, verdict);
    else
        status = bplist_open(&self->handle, source->file, source->length, is_sorted, verdict);
    PyEval_RestoreThread(thread);
    return status;
}

/* Raises for what the library answers to opening, unless that is a top among the objects of the file. A file that
   changes while it is opened may have none. */
static int raise_unopened(Handle *self, bplist_status status, const bplist_verdict *verdict)
{
    if (status == BPLIST_FAULT)
        return raise_refused(&self->source, verdict);
    if (expect(status) < 0)
        return -1;
    if (verdict->top_kind == 0 || verdict->top >= verdict->objects || verdict->objects > self->source.length)
        return raise_changed();
    return 0;
}

PyObject *handle_open(State *state, PyObject *class, PyObject *owner, PyObject *certificate, int is_sorted)
{
    Source source, given = {NULL, NULL, 0};
    bplist_verdict verdict;
    bplist_status status;
    Handle *self;

    if (source_of(state, owner, &source) < 0 || (certificate != Py_None && source_of(state, certificate, &given) < 0))
        return NULL;
    self = handle_new(state, class);
    if (self == NULL)
        return NULL;
    Py_INCREF(owner);
    self->source = source;
    status = handle_fill(self, &given, is_sorted, &verdict);
    if (raise_unopened(self, status, &verdict) < 0) {
        Py_DECREF(self);
        return NULL;
    }
    self->top = verdict.top;
    self->objects = verdict.objects;
    self->is_sorted = is_sorted || (given.owner && memcmp(given.file, KEYED, strlen(KEYED)) == 0);
    return (PyObject *)self;
}

void handle_close(Handle *self)
{
    self->source.file = NULL;
    self->source.length = 0;
    room_free(self->room);
    self->room = NULL;
    if (atomic_load_explicit(&self->busy, memory_order_acquire) == 0) {
        bplist_close(&self->handle);
    } else {
        /* The child of a fork. What the handle held is lost with the call that was using it. */
        memset(&self->handle, 0, sizeof self->handle);
        atomic_store_explicit(&self->busy, 0, memory_order_relaxed);
    }
    Py_CLEAR(self->source.owner);
}

/* Opens the file again, with sorted keys. Needs no GIL. */
static bplist_status reopened(const Source *source, bplist_handle *handle, bplist_handle *out, bplist_verdict *verdict)
{
    uint64_t count = 0;
    uint8_t none[1], *certificate;
    bplist_status status = bplist_certificate(handle, none, 0, &count);

    if (status != BPLIST_SHORT)
        return status;
    certificate = malloc(count);
    if (certificate == NULL)
        return BPLIST_MEMORY;
    status = bplist_certificate(handle, certificate, count, &count);
    if (status == BPLIST_OK)
        status = bplist_open_certified(out, source->file, source->length, certificate, count, true, verdict);
    free(certificate);
    return status;
}

/* Sorts the keys of the file. Whatever prevents that, the property list stays as it is. */
static void handle_sort(Handle *self)
{
    bplist_handle sorted = {0};
    bplist_verdict verdict;
    PyThreadState *thread;

    self->is_sorted = 1;
    thread = handle_begin(self);
    if (thread == NULL) {
        self->is_sorted = 0;
        PyErr_Clear();
        return;
    }
    if (reopened(&self->source, &self->handle, &sorted, &verdict) == BPLIST_OK) {
        if (verdict.objects == self->objects && verdict.top == self->top) {
            bplist_close(&self->handle);
            self->handle = sorted;
        } else {
            bplist_close(&sorted);
        }
    }
    handle_end(self, thread);
}

void handle_compare(Handle *self, uint64_t count, uint64_t times)
{
    if (self->is_sorted || count < MANY)
        return;
    self->compared += count * times;
    if (2 * self->compared > SORTING * self->objects)
        handle_sort(self);
}

int handle_sizes(Handle *self, uint32_t object, bplist_sizes *out)
{
    bplist_status status;
    PyThreadState *thread = handle_begin(self);

    if (thread == NULL)
        return -1;
    status = bplist_size(&self->handle, self->source.file, self->source.length, object, out);
    handle_end(self, thread);
    return expect(status);
}

/* Whether a body lies in the file. */
static inline int is_inside(const bplist_body *body, const Source *source)
{
    return body->length <= source->length && body->place <= source->length - body->length;
}

int handle_faces(Handle *self, const uint32_t *objects, size_t count, bplist_body *out)
{
    const Source *source = &self->source;
    uint64_t given;

    if (handle_ready(self) < 0)
        return -1;
    if (expect(bplist_faces(&self->handle, source->file, source->length, objects, count, out, count, &given)) < 0)
        return -1;
    for (uint64_t i = 0; i < given; i++)
        if (!is_inside(&out[i], source))
            return raise_changed();
    return given == count ? 0 : raise_changed();
}

PyObject *handle_value_of(Handle *self, uint32_t object, const bplist_body *body)
{
    if (is_container(body->kind))
        return container_new(self, object, body);
    return leaf_of(self->state, &self->source, body);
}

int handle_body(Handle *self, uint32_t object, bplist_body *out)
{
    const Source *source = &self->source;

    if (handle_ready(self) < 0)
        return -1;
    if (expect(bplist_face(&self->handle, source->file, source->length, object, out)) < 0)
        return -1;
    return is_inside(out, source) ? 0 : raise_changed();
}

PyObject *handle_value(Handle *self, uint32_t object)
{
    bplist_body body;

    return handle_body(self, object, &body) < 0 ? NULL : handle_value_of(self, object, &body);
}

/* The offset table has the place of each object. The trailer has its place, and the size of its entries. */
int handle_place(Handle *self, uint32_t object, uint64_t *out)
{
    const Source *source = &self->source;
    const uint8_t *trailer;
    uint64_t size, table, room;

    if (handle_ready(self) < 0)
        return -1;
    if (object >= self->objects)
        return raise_status(BPLIST_NO_OBJECT);
    room = source->length - TRAILER;
    trailer = source->file + room;
    size = trailer[6];
    table = number_at(trailer + 24, 8);
    if (size == 0 || size > 8 || table > room || room - table < size * self->objects)
        return raise_changed();
    *out = number_at(source->file + table + size * object, size);
    return 0;
}
