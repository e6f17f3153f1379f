/* The methods of an open property list. */
#include "extension.h"

#include <structmember.h>

/* How many paths are looked for before one of them tells how many keys each of them compares. */
#define PATHS 8

/* How many steps of a path are looked at then. */
#define MOST_STEPS 64

/* Converts an argument to an object number. */
static int number_of(PyObject *given, uint32_t *out)
{
    unsigned long number = PyLong_AsUnsignedLong(given);

    if (number == (unsigned long)-1 && PyErr_Occurred())
        return -1;
    if (number > UINT32_MAX) {
        PyErr_SetString(PyExc_OverflowError, "the number of an object is below 2^32");
        return -1;
    }
    *out = (uint32_t)number;
    return 0;
}

/* Raises the exception for a path that leads to no value. */
static PyObject *raise_missing(PyObject *path, bplist_status status, uint64_t step)
{
    switch (status) {
    case BPLIST_NO_KEY:
        PyErr_SetObject(PyExc_KeyError, path);
        break;
    case BPLIST_NO_INDEX:
        PyErr_Format(PyExc_IndexError, "%U: no index of the array at step %llu", path, (unsigned long long)step);
        break;
    case BPLIST_NOT_STEPPABLE:
        PyErr_Format(PyExc_TypeError, "%U: neither a dictionary nor an array at step %llu", path, (unsigned long long)step);
        break;
    case BPLIST_PATH_TEXT:
        raise_fault("PathError", "(K)", (unsigned long long)step);
        break;
    default:
        expect(status);
    }
    return NULL;
}

/* Adds up, for the first dictionaries that a path leads through, what it takes to look for one key in each. */
static void compare_on(Handle *self, const char *text, size_t length)
{
    uint64_t compared = 0;
    int left = MOST_STEPS;

    for (size_t i = 0; i < length && left > 0; i++) {
        bplist_found found;
        bplist_body body;

        if (text[i] != '/')
            continue;
        left--;
        if (bplist_find(&self->handle, self->source.file, self->source.length, text, i, &found) != BPLIST_OK)
            break;
        if (bplist_face(&self->handle, self->source.file, self->source.length, found.object, &body) == BPLIST_OK
            && body.kind == BPLIST_DICT)
            compared += body.count;
    }
    handle_compare(self, compared, PATHS);
}

/* Finds the object that a path leads to. Returns -1 with an exception set if that cannot be looked for. */
static int find_path(Handle *self, PyObject *path, bplist_status *status, bplist_found *found)
{
    Py_ssize_t length;
    /* A path text is UTF-8, and an unpaired surrogate has no UTF-8. */
    const char *text = PyUnicode_AsUTF8AndSize(path, &length);

    if (text == NULL || handle_ready(self) < 0)
        return -1;
    if (!self->is_sorted && ++self->asked % PATHS == 0) {
        compare_on(self, text, (size_t)length);
        if (handle_ready(self) < 0)
            return -1;
    }
    *status = bplist_find(&self->handle, self->source.file, self->source.length, text, (size_t)length, found);
    return 0;
}

static PyObject *value_at(PyObject *object, PyObject *arguments)
{
    Handle *self = (Handle *)object;
    PyObject *path, *otherwise = NULL;
    bplist_status status;
    bplist_found found;

    if (!PyArg_UnpackTuple(arguments, "at", 1, 2, &path, &otherwise) || find_path(self, path, &status, &found) < 0)
        return NULL;
    if (status == BPLIST_OK)
        return handle_value(self, found.object);
    if (otherwise && (status == BPLIST_NO_KEY || status == BPLIST_NO_INDEX || status == BPLIST_NOT_STEPPABLE)) {
        Py_INCREF(otherwise);
        return otherwise;
    }
    return raise_missing(path, status, found.step);
}

/* Returns the status of the library for a path, and the object that it leads to or the step at which it ends. */
static PyObject *found_at(PyObject *object, PyObject *path)
{
    bplist_status status;
    bplist_found found = {0};

    if (find_path((Handle *)object, path, &status, &found) < 0)
        return NULL;
    if (status == BPLIST_OK)
        return Py_BuildValue("(II)", status, found.object);
    return Py_BuildValue("(IK)", status, (unsigned long long)found.step);
}

static PyObject *place_at(PyObject *object, PyObject *path)
{
    Handle *self = (Handle *)object;
    bplist_status status;
    bplist_found found;
    uint64_t place;

    if (find_path(self, path, &status, &found) < 0)
        return NULL;
    if (status != BPLIST_OK)
        return raise_missing(path, status, found.step);
    if (handle_place(self, found.object, &place) < 0)
        return NULL;
    return Py_BuildValue("(IK)", found.object, (unsigned long long)place);
}

static PyObject *sizes_of(PyObject *object, PyObject *number)
{
    uint32_t asked;
    bplist_sizes sizes;

    if (number_of(number, &asked) < 0 || handle_sizes((Handle *)object, asked, &sizes) < 0)
        return NULL;
    if (sizes.has_text)
        return Py_BuildValue("(KK)", (unsigned long long)sizes.nodes, (unsigned long long)sizes.text);
    return Py_BuildValue("(KO)", (unsigned long long)sizes.nodes, Py_None);
}

static PyObject *text_of(PyObject *object, PyObject *arguments)
{
    Handle *self = (Handle *)object;
    unsigned int number;
    Py_ssize_t length;
    bplist_written written;
    bplist_status status;
    PyThreadState *thread;
    PyObject *text = NULL;
    char *buffer;

    if (!PyArg_ParseTuple(arguments, "In", &number, &length))
        return NULL;
    buffer = PyMem_Calloc(1, (size_t)length);
    if (buffer == NULL)
        return PyErr_NoMemory();
    thread = handle_begin(self);
    if (thread) {
        status = bplist_text(&self->handle, self->source.file, self->source.length, number, buffer, (size_t)length,
                             &written);
        handle_end(self, thread);
        if (status == BPLIST_OK && written.length > (uint64_t)length)
            raise_changed();
        else if (expect(status) == 0)
            text = ascii_of(NULL, buffer, written.length);
    }
    PyMem_Free(buffer);
    return text;
}

/* Writes the certificate. Releases the GIL. Returns 1 if there is not enough room. */
static int write_certificate(Handle *self, uint8_t *buffer, size_t room, uint64_t *count)
{
    bplist_status status;
    PyThreadState *thread = handle_begin(self);

    if (thread == NULL)
        return -1;
    status = bplist_certificate(&self->handle, buffer, room, count);
    handle_end(self, thread);
    return status == BPLIST_SHORT ? 1 : expect(status);
}

static PyObject *certificate_of(PyObject *object, void *closure)
{
    Handle *self = (Handle *)object;
    uint8_t none[1];
    uint64_t count = 0;
    PyObject *bytes = NULL;
    int is_short = write_certificate(self, none, 0, &count);

    (void)closure;
    /* It becomes longer if another thread's look-ups have the keys sorted. */
    while (is_short > 0) {
        size_t room = (size_t)count;

        Py_XDECREF(bytes);
        bytes = PyBytes_FromStringAndSize(NULL, (Py_ssize_t)room);
        if (bytes == NULL)
            return NULL;
        is_short = write_certificate(self, (uint8_t *)PyBytes_AsString(bytes), room, &count);
    }
    if (is_short < 0)
        Py_CLEAR(bytes);
    return bytes;
}

static PyObject *tree_of_number(PyObject *object, PyObject *arguments)
{
    unsigned int number;
    unsigned long long limit;

    if (!PyArg_ParseTuple(arguments, "IK", &number, &limit))
        return NULL;
    return tree_of((Handle *)object, number, limit);
}

static PyObject *value_of_number(PyObject *object, PyObject *number)
{
    uint32_t asked;

    return number_of(number, &asked) < 0 ? NULL : handle_value((Handle *)object, asked);
}

/* Returns the kind, place and length of the body of an object. */
static PyObject *body_of_number(PyObject *object, PyObject *number)
{
    uint32_t asked;
    bplist_body body;

    if (number_of(number, &asked) < 0 || handle_body((Handle *)object, asked, &body) < 0)
        return NULL;
    return Py_BuildValue("(IKK)", body.kind, (unsigned long long)body.place, (unsigned long long)body.length);
}

static PyObject *close_handle(PyObject *object, PyObject *none)
{
    (void)none;
    /* The child of a fork closes it too. */
    if (handle_wait((Handle *)object) < 0)
        PyErr_Clear();
    handle_close((Handle *)object);
    Py_RETURN_NONE;
}

static PyObject *is_closed(PyObject *object, void *closure)
{
    (void)closure;
    return PyBool_FromLong(((Handle *)object)->source.owner == NULL);
}

static void dealloc(PyObject *object)
{
    PyTypeObject *type = Py_TYPE(object);
    Handle *self = (Handle *)object;

    handle_close(self);
    if (self->lock)
        PyThread_free_lock(self->lock);
    ((freefunc)PyType_GetSlot(type, Py_tp_free))(object);
    Py_DECREF(type);
}

static PyMethodDef methods[] = {
    {"at", value_at, METH_VARARGS,
     "at(path, default=..., /)\n--\n\n"
     "Returns the value that a path leads to. A path is a JSON Pointer, for example \"/Root/items/0\"; \"\" is the top.\n\n"
     "If it leads nowhere, returns the default if one is given, and otherwise raises KeyError if a dictionary has no such\n"
     "key, IndexError if an array has no such index, and TypeError if a step continues from any other value. Raises\n"
     "`PathError` if the path text is wrong, whether or not there is a default."},
    {"close", close_handle, METH_NOARGS, "close()\n--\n\nCloses the property list. Closing it again does nothing."},
    {"_body", body_of_number, METH_O, "The kind of an object, and the place and length of its body."},
    {"_found", found_at, METH_O, "The library's status for a path, and the object that it leads to or the step that fails."},
    {"_place", place_at, METH_O, "The object that a path leads to, and its place in the file; raises as `at` does."},
    {"_sizes", sizes_of, METH_O, "The number of nodes of an object's tree, and the length of its old-style text or None."},
    {"_text", text_of, METH_VARARGS, "The old-style text of an object, which has this length."},
    {"_tree", tree_of_number, METH_VARARGS, "The tree of an object, which may have at most this many nodes."},
    {"_value", value_of_number, METH_O, "The value of an object: a leaf, or a container that is read on access."},
    {NULL, NULL, 0, NULL},
};

static PyGetSetDef properties[] = {
    {"certificate", certificate_of, NULL, "The certificate with which the same bytes can be opened again.", NULL},
    {"closed", is_closed, NULL, "Whether the property list was closed.", NULL},
    {NULL, NULL, NULL, NULL, NULL},
};

static PyMemberDef members[] = {
    {"_top", T_UINT, offsetof(Handle, top), READONLY, "The number of the top object."},
    {NULL, 0, 0, 0, NULL},
};

static PyType_Slot slots[] = {
    {Py_tp_doc, "An open property list."},
    {Py_tp_dealloc, dealloc},
    {Py_tp_methods, methods},
    {Py_tp_getset, properties},
    {Py_tp_members, members},
    {0, NULL},
};

PyType_Spec handle_spec = {
    .name = "bplist._bplist.Handle",
    .basicsize = sizeof(Handle),
    .flags = Py_TPFLAGS_DEFAULT | Py_TPFLAGS_BASETYPE | Py_TPFLAGS_DISALLOW_INSTANTIATION,
    .slots = slots,
};
