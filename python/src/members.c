/* Iterators over the members of a container. */
#include "extension.h"

/* The largest number of members that are read at once. */
#define BLOCK 32

typedef struct Members {
    PyObject_VAR_HEAD
    /* NULL at the end. */
    Container *container;
    /* The number of the first member after the block, and that of the end. */
    uint64_t next;
    uint64_t end;
    /* The distance from a member to the one after it. */
    uint64_t step;
    /* True if two members are given as a pair. */
    int is_paired;
    /* How many members the block has, and how many of them were given. */
    size_t read;
    size_t given;
    /* The block: the bodies of the members. Their objects follow it, as uint32_t. Each has room for Py_SIZE members. */
    bplist_body bodies[];
} Members;

static inline uint32_t *objects_of(Members *self)
{
    return (uint32_t *)(self->bodies + Py_SIZE(self));
}

static PyObject *members_new(Container *container, uint64_t first, uint64_t step, int is_paired)
{
    State *state = container->plist->state;
    uint64_t count = reference_count(&container->references);
    Members *self = instance_with(state->held[MEMBERS], count < BLOCK ? (Py_ssize_t)count : BLOCK);

    if (self == NULL)
        return NULL;
    Py_INCREF(container);
    self->container = container;
    self->next = first;
    self->end = count;
    self->step = step;
    self->is_paired = is_paired;
    return (PyObject *)self;
}

PyObject *members_from(PyObject *container, PyObject *arguments)
{
    unsigned long long first, step;

    if (!PyArg_ParseTuple(arguments, "KK", &first, &step))
        return NULL;
    return members_new((Container *)container, first, step, 0);
}

PyObject *members_pairs(PyObject *container, PyObject *none)
{
    (void)none;
    return members_new((Container *)container, 0, 1, 1);
}

/* Raises if a key in the block is no text: each key was one when the file was checked. */
static int see_keys(const Members *self, const Container *container, size_t count)
{
    if (!container->references.is_dict)
        return 0;
    for (size_t k = 0; k < count; k++)
        if ((self->next + k * self->step) % 2 == 0 && !is_text(self->bodies[k].kind))
            return raise_changed();
    return 0;
}

/* Reads the next block. */
static int members_read(Members *self, Container *container)
{
    uint32_t *objects = objects_of(self);
    size_t room = (size_t)Py_SIZE(self), count = 0;
    uint64_t next = self->next;

    for (; count < room && next < self->end; next += self->step)
        if (member_at(container, next, &objects[count++]) < 0)
            return -1;
    self->read = self->given = 0;
    if (handle_faces(container->plist, objects, count, self->bodies) < 0 || see_keys(self, container, count) < 0)
        return -1;
    self->read = count;
    self->next = next;
    return 0;
}

static PyObject *members_value(Members *self, Container *container)
{
    bplist_body body;

    /* Only this lets other threads run before the member is taken. */
    if (handle_ready(container->plist) < 0)
        return NULL;
    if (self->given == self->read && (self->next >= self->end || members_read(self, container) < 0))
        return NULL;
    /* Making the value may run any code, which may go on with this iterator. */
    body = self->bodies[self->given];
    return handle_value_of(container->plist, objects_of(self)[self->given++], &body);
}

static PyObject *members_pair(Members *self, Container *container)
{
    PyObject *pair = NULL;
    PyObject *key = members_value(self, container);
    PyObject *value = key ? members_value(self, container) : NULL;

    if (value)
        pair = PyTuple_Pack(2, key, value);
    Py_XDECREF(key);
    Py_XDECREF(value);
    return pair;
}

static PyObject *members_next(PyObject *object)
{
    Members *self = (Members *)object;
    Container *container = self->container;
    PyObject *given;

    if (self->given == self->read && self->next >= self->end) {
        Py_CLEAR(self->container);
        return NULL;
    }
    /* Making a value may run any code, which may end this iterator. */
    Py_INCREF(container);
    given = self->is_paired ? members_pair(self, container) : members_value(self, container);
    Py_DECREF(container);
    return given;
}

static PyObject *members_iter(PyObject *self)
{
    Py_INCREF(self);
    return self;
}

static int members_traverse(PyObject *object, visitproc visit, void *arg)
{
    Py_VISIT(Py_TYPE(object));
    Py_VISIT(((Members *)object)->container);
    return 0;
}

static void members_dealloc(PyObject *object)
{
    PyTypeObject *type = Py_TYPE(object);

    PyObject_GC_UnTrack(object);
    Py_XDECREF(((Members *)object)->container);
    ((freefunc)PyType_GetSlot(type, Py_tp_free))(object);
    Py_DECREF(type);
}

static PyType_Slot slots[] = {
    {Py_tp_doc, "An iterator over members of a container."},
    {Py_tp_traverse, members_traverse},
    {Py_tp_dealloc, members_dealloc},
    {Py_tp_iter, members_iter},
    {Py_tp_iternext, members_next},
    {0, NULL},
};

PyType_Spec members_spec = {
    .name = "bplist._bplist.Members",
    .basicsize = sizeof(Members),
    .itemsize = sizeof(bplist_body) + sizeof(uint32_t),
    .flags = Py_TPFLAGS_DEFAULT | Py_TPFLAGS_HAVE_GC | Py_TPFLAGS_DISALLOW_INSTANTIATION,
    .slots = slots,
};
