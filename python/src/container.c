/* Containers that are read on access. */
#include "extension.h"

#include <structmember.h>

/* The length of the header of a file. */
#define HEADER 8

int references_of(const bplist_body *body, References *out)
{
    uint64_t count;

    out->place = body->place;
    out->count = body->count;
    out->mask = out->width = 0;
    out->is_dict = body->kind == BPLIST_DICT;
    if (body->count == 0)
        return 0;
    /* Only a file that was changed has other lengths, or references in its header. */
    if (body->count > body->length || body->place < HEADER)
        return raise_changed();
    count = reference_count(out);
    if (body->length % count != 0 || body->length / count > sizeof(uint64_t))
        return raise_changed();
    out->width = (uint8_t)(body->length / count);
    out->mask = UINT64_MAX >> (64 - 8 * out->width);
    return 0;
}

int member_at(Container *container, uint64_t i, uint32_t *out)
{
    const References *references = &container->references;
    Handle *plist = container->plist;
    uint64_t object;

    if (handle_ready(plist) < 0)
        return -1;
    if (i >= reference_count(references))
        return raise_status(BPLIST_NO_MEMBER);
    if (references->is_dict)
        i = i / 2 + (i % 2 == 0 ? 0 : references->count);
    object = reference_at(references, plist->source.file, i);
    if (object >= plist->objects)
        return raise_changed();
    *out = (uint32_t)object;
    return 0;
}

/* Returns the class of containers of a kind. */
static PyObject *class_of(State *state, uint32_t kind)
{
    if (kind == BPLIST_ARRAY)
        return state->held[ARRAY];
    return state->held[kind == BPLIST_SET ? SET : DICT];
}

PyObject *container_new(Handle *plist, uint32_t object, const bplist_body *body)
{
    References references;
    Container *self;

    if (references_of(body, &references) < 0)
        return NULL;
    self = instance_of(class_of(plist->state, body->kind));
    if (self == NULL)
        return NULL;
    Py_INCREF(plist);
    self->plist = plist;
    self->references = references;
    self->object = object;
    return (PyObject *)self;
}

static int container_traverse(PyObject *object, visitproc visit, void *arg)
{
    Py_VISIT(Py_TYPE(object));
    Py_VISIT(((Container *)object)->plist);
    return 0;
}

static void container_dealloc(PyObject *object)
{
    PyTypeObject *type = Py_TYPE(object);

    PyObject_GC_UnTrack(object);
    Py_XDECREF(((Container *)object)->plist);
    ((freefunc)PyType_GetSlot(type, Py_tp_free))(object);
    Py_DECREF(type);
}

static Py_ssize_t container_length(PyObject *object)
{
    return (Py_ssize_t)((Container *)object)->references.count;
}

/* Gives the object of the member with this number. */
static int member_with(PyObject *object, PyObject *number, uint32_t *out)
{
    unsigned long long asked = PyLong_AsUnsignedLongLong(number);

    if (asked == (unsigned long long)-1 && PyErr_Occurred())
        return -1;
    return member_at((Container *)object, asked, out);
}

static PyObject *member_of(PyObject *object, PyObject *number)
{
    uint32_t member;

    return member_with(object, number, &member) < 0 ? NULL : handle_value(((Container *)object)->plist, member);
}

static PyObject *member_object(PyObject *object, PyObject *number)
{
    uint32_t member;

    return member_with(object, number, &member) < 0 ? NULL : PyLong_FromUnsignedLong(member);
}

/* Copies the UTF-16 units of a text to new memory. Returns their number, or -1. An unpaired surrogate is a unit. */
static Py_ssize_t units_of(PyObject *text, uint16_t **out)
{
    Py_ssize_t length = PyUnicode_GetLength(text), count = 0;
    Py_UCS4 *points = PyUnicode_AsUCS4Copy(text);
    uint16_t *units = points ? PyMem_Calloc((size_t)length + 1, 2 * sizeof *units) : NULL;

    for (Py_ssize_t i = 0; units && i < length; i++) {
        Py_UCS4 above = points[i] - 0x10000;

        if (points[i] < 0x10000) {
            units[count++] = (uint16_t)points[i];
        } else {
            units[count++] = (uint16_t)(0xD800 + (above >> 10));
            units[count++] = (uint16_t)(0xDC00 + (above & 0x3FF));
        }
    }
    if (points && units == NULL)
        PyErr_NoMemory();
    PyMem_Free(points);
    *out = units;
    return units ? count : -1;
}

/* Looks up the value of a key. Returns 1 if it was found, 0 if not, -1 with an exception set. Only a str is a key. What
   has no hash is refused, as by a dict. */
static int find_key(Container *self, PyObject *key, uint32_t *out)
{
    Handle *plist = self->plist;
    bplist_status status;
    uint16_t *units;
    Py_ssize_t count;

    if (!PyUnicode_Check(key))
        return PyObject_Hash(key) == -1 ? -1 : 0;
    count = units_of(key, &units);
    if (count < 0)
        return -1;
    handle_compare(plist, self->references.count, 1);
    if (handle_ready(plist) < 0) {
        PyMem_Free(units);
        return -1;
    }
    status = bplist_find_key(&plist->handle, plist->source.file, plist->source.length, self->object, units, (size_t)count,
                             out);
    PyMem_Free(units);
    if (status == BPLIST_NO_KEY)
        return 0;
    return expect(status) < 0 ? -1 : 1;
}

static PyObject *value_of_key(PyObject *object, PyObject *key)
{
    Container *self = (Container *)object;
    uint32_t value;
    int found = find_key(self, key, &value);

    if (found > 0)
        return handle_value(self->plist, value);
    if (found == 0)
        PyErr_SetObject(PyExc_KeyError, key);
    return NULL;
}

static PyObject *has_key(PyObject *object, PyObject *key)
{
    uint32_t value;
    int found = find_key((Container *)object, key, &value);

    return found < 0 ? NULL : PyBool_FromLong(found);
}

static PyMethodDef methods[] = {
    {"_member", member_of, METH_O,
     "The value of a member. In a dictionary member 2j is key j, and member 2j + 1 is its value."},
    {"_member_object", member_object, METH_O, "The object of the same member."},
    {"_members", members_from, METH_VARARGS, "The values of every `step`th member from number `first` on."},
    {"_pairs", members_pairs, METH_NOARGS, "The pairs of a dictionary."},
    {"_value_of", value_of_key, METH_O, "The value of a key of a dictionary, or KeyError."},
    {"_has", has_key, METH_O, "Whether a dictionary has this key."},
    {NULL, NULL, 0, NULL},
};

static PyMemberDef members[] = {
    {"object", T_UINT, offsetof(Container, object), READONLY, "The number of the object in the file."},
    {"_plist", T_OBJECT_EX, offsetof(Container, plist), READONLY, "The property list."},
    {NULL, 0, 0, 0, NULL},
};

static PyType_Slot slots[] = {
    {Py_tp_doc, "A container of a property list."},
    {Py_tp_traverse, container_traverse},
    {Py_tp_dealloc, container_dealloc},
    {Py_mp_length, container_length},
    {Py_tp_methods, methods},
    {Py_tp_members, members},
    {0, NULL},
};

PyType_Spec container_spec = {
    .name = "bplist._bplist.Container",
    .basicsize = sizeof(Container),
    .flags = Py_TPFLAGS_DEFAULT | Py_TPFLAGS_BASETYPE | Py_TPFLAGS_HAVE_GC | Py_TPFLAGS_DISALLOW_INSTANTIATION,
    .slots = slots,
};
