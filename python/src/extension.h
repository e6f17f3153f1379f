/* The declarations that the files of the extension share.

   A call of the library is made with the GIL held, so no other call can interrupt it. Calls that open a file, or walk
   through all of it, release the GIL. On an open handle such a call is made between `handle_begin` and `handle_end`, and all other calls
   wait for it.

   A function that returns an object returns a new reference, or NULL with an exception set. A function that returns an
   int returns 0, or -1 with an exception set. */
#ifndef EXTENSION_H
#define EXTENSION_H

#define PY_SSIZE_T_CLEAN
#include <Python.h>
#include <bplist.h>
#include <endian.h>
#include <stdatomic.h>
#include <string.h>

#ifdef Py_GIL_DISABLED
#error "bplist needs a Python with the GIL: it does not support the free-threaded build"
#endif

/* The state of the module: its own types, and what was passed to `bind`. */
enum {
    MAPPED,
    HANDLE,
    CONTAINER,
    MEMBERS,
    /* The classes of containers. */
    ARRAY,
    SET,
    DICT,
    /* The class of dates that datetime cannot hold. */
    FAR_DATE,
    /* What is called for the class of UIDs and the name of their attribute. */
    UID_CLASS,
    /* datetime.datetime. */
    DATETIME,
    /* Arguments for datetime.datetime, which are used again and again. */
    DATE_ARGUMENTS,
    /* The number of what `bind` sets, and of the module's own types. */
    BOUND,
    /* The class of UIDs, and the name of their only attribute, or None if they have others. NULL before the first. */
    UID = BOUND,
    UID_DATA,
    HELD
};

typedef struct State {
    PyObject *held[HELD];
} State;

/* The bytes of a file, and the object that keeps them alive. */
typedef struct Source {
    PyObject *owner;
    const uint8_t *file;
    size_t length;
} Source;

/* An open property list. After it is closed, `source.owner` is NULL. */
typedef struct Handle {
    PyObject_HEAD
    State *state;
    Source source;
    bplist_handle handle;
    /* The number of objects in the file, and the number of the top, which is below it. */
    uint64_t objects;
    uint32_t top;
    /* Whether the handle has sorted keys, or is not to get them. */
    int is_sorted;
    /* Memory for the next tree of a container, or NULL. */
    struct Room *room;
    /* How many keys were compared, at most, to find one without sorted keys; and how often `at` was called. */
    uint64_t compared;
    uint64_t asked;
    /* The process of the call that has released the GIL, during that call, otherwise 0. That call holds the lock. It
       clears this without the GIL, which it may never get again when the interpreter ends. In the child of a fork this
       is the number of the parent, whose call does not end there. */
    atomic_int busy;
    /* The lock, and the process that it belongs to. */
    PyThread_type_lock lock;
    int process;
} Handle;

/* The references of a container: from `place` on in the file, each `width` bytes long, big-endian. `count` is its
   number of members, or of pairs for a dictionary, which has first its keys and then its values. */
typedef struct References {
    uint64_t place;
    uint64_t count;
    /* The bits of a reference. */
    uint64_t mask;
    uint8_t width;
    uint8_t is_dict;
} References;

/* A container of a property list. */
typedef struct Container {
    PyObject_HEAD
    Handle *plist;
    References references;
    unsigned int object;
} Container;

/* module.c */

/* Returns true if instances of a class can be made without calling it, as is done with dates and UIDs. Otherwise
   raises. */
int is_made(PyObject *class);
/* Makes an object of a type, with room for so many items. It is all zeros after its head. Raises if the module was
   cleared. */
void *instance_with(PyObject *type, Py_ssize_t items);
void *instance_of(PyObject *type);

/* faults.c: exceptions. Functions that raise return -1. */

/* Raises the exception of bplist.faults with this name. Its arguments are given as for Py_BuildValue. */
int raise_fault(const char *name, const char *arguments, ...);
/* What a file looks like in place of a property list: no text if that is not known. */
typedef struct Words {
    char text[200];
    uint64_t count;
} Words;

/* Reads some of the file. Releases the GIL. */
int words_of(const Source *source, Words *words);
/* Raises, and returns NULL, if the collector has cleared the module. A finalizer may run after that. */
void *raise_cleared(void);
/* Raises for a file that the library refuses. Looks up the circle if there is one, or what the file looks like. */
int raise_refused(const Source *source, const bplist_verdict *verdict);
/* Raises for a file that changed after it was opened. */
int raise_changed(void);
/* The same, in place of the exception that is set, if that is one of this class. */
int raise_changed_for(PyObject *class);
/* Raises for a status that is not BPLIST_OK. */
int raise_status(bplist_status status);

static inline int expect(bplist_status status)
{
    return status == BPLIST_OK ? 0 : raise_status(status);
}

/* source.c */

extern PyType_Spec mapped_spec;
/* Maps `length` bytes, at least one, of the open file with this descriptor into memory. */
PyObject *mapped_new(State *state, int descriptor, size_t length);
/* Gives the bytes of a mapped file or of a bytes object, which must not be of a subclass: that could refer to anything.
   Takes no reference. */
int source_of(State *state, PyObject *owner, Source *out);

/* handle.c */

/* Opens a property list, with a certificate (a bytes object) unless that is None. */
PyObject *handle_open(State *state, PyObject *class, PyObject *owner, PyObject *certificate, int is_sorted);
/* Closes a property list on which no call of this process is running. Closing it again does nothing. */
void handle_close(Handle *self);
/* Waits, with the GIL released, until no call that has released it is running. Raises in the child of a fork that was
   made during such a call. */
int handle_wait(Handle *self);
/* Waits in the same way, and raises if the property list is closed. */
static inline int handle_ready(Handle *self)
{
    if (atomic_load_explicit(&self->busy, memory_order_acquire) != 0 && handle_wait(self) < 0)
        return -1;
    return self->source.owner ? 0 : raise_status(BPLIST_CLOSED);
}

/* Releases the GIL for a call on this property list. Returns NULL, with an exception set, if it is closed. */
PyThreadState *handle_begin(Handle *self);
void handle_end(Handle *self, PyThreadState *thread);
/* Measures the value of an object. Releases the GIL. */
int handle_sizes(Handle *self, uint32_t object, bplist_sizes *out);
/* Gives the kind of each of these objects, and its body, which is inside the file. The kind is 0 if the top does not
   reach the object. */
int handle_faces(Handle *self, const uint32_t *objects, size_t count, bplist_body *out);
/* Gives the kind and the body of an object. The body is inside the file. */
int handle_body(Handle *self, uint32_t object, bplist_body *out);
/* Gives the place of an object in the file. */
int handle_place(Handle *self, uint32_t object, uint64_t *out);
/* Before a key is looked for among `count` keys, `times` times: sorts the keys of the file when that has begun to pay.
   Releases the GIL for that. Raises nothing. */
void handle_compare(Handle *self, uint64_t count, uint64_t times);
/* Returns a leaf, or a container that is read on access. */
PyObject *handle_value(Handle *self, uint32_t object);
/* Returns the same of an object with this body. */
PyObject *handle_value_of(Handle *self, uint32_t object, const bplist_body *body);

/* methods.c */

extern PyType_Spec handle_spec;

/* container.c */

extern PyType_Spec container_spec;
static inline int is_container(uint32_t kind)
{
    return kind >= BPLIST_ARRAY;
}

static inline int is_text(uint32_t kind)
{
    return kind == BPLIST_ASCII || kind == BPLIST_WIDE;
}

/* Gives the references of a container with this body. */
int references_of(const bplist_body *body, References *out);

static inline uint64_t reference_count(const References *references)
{
    return references->is_dict ? 2 * references->count : references->count;
}

/* Decodes a big-endian number of at most 8 bytes. */
static inline uint64_t number_at(const uint8_t *bytes, uint64_t length)
{
    uint64_t number = 0;
    uint32_t four;

    if (length == sizeof number) {
        memcpy(&number, bytes, sizeof number);
        return be64toh(number);
    }
    if (length == sizeof four) {
        memcpy(&four, bytes, sizeof four);
        return be32toh(four);
    }
    if (length == 1)
        return bytes[0];
    for (uint64_t i = 0; i < length; i++)
        number = number << 8 | bytes[i];
    return number;
}

/* Gives reference `i` of a container in this file, in the order of the file. Reads the eight bytes that end with it:
   the file begins with eight others. */
static inline uint64_t reference_at(const References *references, const uint8_t *file, uint64_t i)
{
    const uint8_t *end = file + references->place + (i + 1) * references->width;
    uint64_t eight;

    memcpy(&eight, end - sizeof eight, sizeof eight);
    return be64toh(eight) & references->mask;
}

/* Gives the object of member `i` of an open container. In a dictionary member 2j is key j, and member 2j + 1 is value
   j. */
int member_at(Container *container, uint64_t i, uint32_t *out);
/* Returns the container of this body. */
PyObject *container_new(Handle *plist, uint32_t object, const bplist_body *body);

/* members.c */

extern PyType_Spec members_spec;
/* Methods of containers: an iterator over the values of every `step`th member from number `first` on, and one over the
   pairs of a dictionary. */
PyObject *members_from(PyObject *container, PyObject *arguments);
PyObject *members_pairs(PyObject *container, PyObject *none);

/* date.c */

/* Returns new arguments for datetime.datetime: a tuple of one bytes object, for which dates are written. */
PyObject *date_arguments(void);
/* Returns the date this many seconds after 2001-01-01, or a `Date` of the seconds if datetime cannot hold it. */
PyObject *date_of(State *state, double seconds);

/* leaf.c */

/* Decodes ASCII. Raises the exception for a changed file if it is none. To make that exception may start the
   collector, and so run any code; `owner`, or NULL, is what keeps the bytes meanwhile. */
PyObject *ascii_of(PyObject *owner, const char *bytes, size_t length);
/* Returns the value of a leaf of this file. */
PyObject *leaf_of(State *state, const Source *source, const bplist_body *body);

/* tree.c */

/* Frees the memory that the trees of containers left for the next one. */
void room_free(struct Room *room);
/* Returns the value of an object as a tree of dict, list and leaves. Builds each object once. Raises if the tree has
   more nodes than `limit`, and builds no more than that. */
PyObject *tree_of(Handle *self, uint32_t object, uint64_t limit);

#endif
