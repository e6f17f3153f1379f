/* The bytes of a file: in a bytes object, or in a file mapped into memory. */
#include "extension.h"

#include <sys/mman.h>

typedef struct Mapped {
    PyObject_HEAD
    void *file;
    size_t length;
} Mapped;

PyObject *mapped_new(State *state, int descriptor, size_t length)
{
    Mapped *self = instance_of(state->held[MAPPED]);

    if (self == NULL)
        return NULL;
    self->file = mmap(NULL, length, PROT_READ, MAP_PRIVATE, descriptor, 0);
    if (self->file == MAP_FAILED) {
        self->file = NULL;
        PyErr_SetFromErrno(PyExc_OSError);
        Py_CLEAR(self);
    } else {
        self->length = length;
    }
    return (PyObject *)self;
}

static void mapped_dealloc(PyObject *object)
{
    PyTypeObject *type = Py_TYPE(object);
    Mapped *self = (Mapped *)object;

    if (self->file)
        munmap(self->file, self->length);
    ((freefunc)PyType_GetSlot(type, Py_tp_free))(object);
    Py_DECREF(type);
}

int source_of(State *state, PyObject *owner, Source *out)
{
    out->owner = owner;
    if (Py_IS_TYPE(owner, (PyTypeObject *)state->held[MAPPED])) {
        out->file = ((Mapped *)owner)->file;
        out->length = ((Mapped *)owner)->length;
        return 0;
    }
    if (!PyBytes_CheckExact(owner)) {
        PyErr_Format(PyExc_TypeError, "a file is given as bytes, not as %.200R", Py_TYPE(owner));
        return -1;
    }
    out->file = (const uint8_t *)PyBytes_AsString(owner);
    out->length = (size_t)PyBytes_Size(owner);
    return 0;
}

static PyType_Slot slots[] = {
    {Py_tp_doc, "A file mapped into memory, until nothing refers to it."},
    {Py_tp_dealloc, mapped_dealloc},
    {0, NULL},
};

PyType_Spec mapped_spec = {
    .name = "bplist._bplist.MappedFile",
    .basicsize = sizeof(Mapped),
    .flags = Py_TPFLAGS_DEFAULT | Py_TPFLAGS_DISALLOW_INSTANTIATION,
    .slots = slots,
};
