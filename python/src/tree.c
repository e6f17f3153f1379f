/* Builds trees like those of plistlib: dict, list and leaves.

   Each object is made once. A container gets its members in their order, and a member that is itself a container gets
   its own before the next. In that order most writers number the objects, so the bodies of objects with consecutive
   numbers are read at once.

   The collector knows nothing of what is made before the tree is whole. So nobody finds a list whose members are
   missing. Nor is it run: no part of the tree is garbage, and it would look at them again and again. If the containers
   of the tree have made it due, it runs before it gets to know of them. */
#include "extension.h"

/* The largest number of bodies that are read at once, and the number of those that are read where the order is broken.
   */
#define BLOCK 128
#define FEW 8
/* Python keeps shorter tuples for later. */
#define LONG_TUPLE 32

/* What was made for an object, or 0. The containers of the tree own it. HIDDEN is set if the collector is to know of it
   when the tree is whole. */
typedef uintptr_t Made;
#define HIDDEN ((Made)1)

/* The bodies of objects with consecutive numbers. */
typedef struct Block {
    uint64_t first;
    uint64_t count;
    bplist_body bodies[BLOCK];
} Block;

/* A list or a dict that gets its members: how many members or pairs it has, and how many nodes its tree has so far, if
   each member that is not yet made is one. */
typedef struct Filling {
    uint32_t object;
    References references;
    uint64_t filled;
    uint64_t nodes;
} Filling;

/* What is kept of each object while a tree is built. The tree of the top is built in new memory. All trees of
   containers use the same, so that one of them costs no more than it has objects. */
typedef struct Room {
    /* By object number, and 0 for what was not made yet. */
    Made *made;
    /* By object number of a container that was made: the number of nodes of its tree, at most UINT64_MAX. */
    uint64_t *nodes;
    /* For the tree of a container: the objects that were made, and the length of this list. */
    uint32_t *used;
    size_t count;
    size_t space;
    int is_whole;
} Room;

typedef struct Tree {
    Handle *handle;
    /* The bytes of the file, which the tree keeps alive. */
    Source source;
    /* The root of the tree, and the largest number of nodes that the tree may have. */
    uint32_t object;
    uint64_t limit;
    /* The number of nodes so far, if no container occurs twice. */
    uint64_t nodes;
    Room *room;
    /* The way from the root to the container that gets members. */
    Filling *filling;
    size_t height;
    size_t space;
    /* Whether the collector is to be enabled when the tree is whole. */
    int is_collecting;
    /* The bodies of keys, and of all others: a dictionary has its keys before its values. */
    Block keys;
    Block values;
} Tree;

/* Returns what was made, as a borrowed reference, or NULL. */
static inline PyObject *value_in(Made made)
{
    return (PyObject *)(made & ~HIDDEN);
}

/* Hides what was made from the collector, if it knows of it. */
static inline void hide(Made *made)
{
    PyObject *value = value_in(*made);

    if (PyObject_GC_IsTracked(value)) {
        PyObject_GC_UnTrack(value);
        *made |= HIDDEN;
    }
}

static void stop_collector(Tree *tree)
{
    tree->is_collecting = PyGC_Disable();
}

static void start_collector(const Tree *tree)
{
    if (tree->is_collecting)
        PyGC_Enable();
}

/* Raises for a tree with too many nodes, with the number that the library gives. Meanwhile other threads run, and they
   may enable the collector or disable it. */
static int raise_too_large(Tree *tree)
{
    bplist_sizes sizes;
    int status;

    start_collector(tree);
    status = handle_sizes(tree->handle, tree->object, &sizes);
    stop_collector(tree);
    if (status < 0)
        return -1;
    if (sizes.nodes <= tree->limit)
        return raise_changed();
    return raise_fault("TooLarge", "(KK)", (unsigned long long)sizes.nodes, (unsigned long long)tree->limit);
}

/* Reads the bodies of an object and of those after it: twice as many as last time if it follows on them. */
static int block_read(const Tree *tree, Block *block, uint64_t object)
{
    uint32_t objects[BLOCK];
    uint64_t left = tree->handle->objects - object;
    uint64_t count = object - block->first < block->count + BLOCK ? 2 * block->count : FEW;

    count = count < FEW ? FEW : count > BLOCK ? BLOCK : count;
    count = count < left ? count : left;
    for (uint64_t k = 0; k < count; k++)
        objects[k] = (uint32_t)(object + k);
    block->count = 0;
    if (handle_faces(tree->handle, objects, count, block->bodies) < 0)
        return -1;
    block->first = object;
    block->count = count;
    return 0;
}

static inline int has_body(const Block *block, uint64_t object)
{
    return object - block->first < block->count;
}

/* Returns the body of an object whose number is below that of the objects. */
static inline const bplist_body *tree_body(Tree *tree, Block *block, uint64_t object)
{
    const bplist_body *body;

    /* Keys follow the dictionary that has them. */
    if (!has_body(block, object) && has_body(&tree->values, object))
        block = &tree->values;
    else if (!has_body(block, object) && block_read(tree, block, object) < 0)
        return NULL;
    body = &block->bodies[object - block->first];
    if (body->kind == 0) {
        raise_status(BPLIST_NO_OBJECT);
        return NULL;
    }
    return body;
}

/* Puts a container on the way. */
static int push(Tree *tree, uint32_t object, const References *references)
{
    if (tree->height == tree->space) {
        size_t space = 2 * tree->space + FEW;
        Filling *moved = PyMem_Realloc(tree->filling, space * sizeof *moved);

        if (moved == NULL) {
            PyErr_NoMemory();
            return -1;
        }
        tree->filling = moved;
        tree->space = space;
    }
    tree->filling[tree->height++] = (Filling){object, *references, 0, 1 + reference_count(references)};
    return 0;
}

/* Makes a container without members, and puts it on the way if it is to have any. */
static PyObject *container_of(Tree *tree, uint32_t object, const bplist_body *body)
{
    References references;
    PyObject *value;

    if (references_of(body, &references) < 0)
        return NULL;
    tree->nodes += reference_count(&references);
    if (tree->nodes > tree->limit) {
        raise_too_large(tree);
        return NULL;
    }
    tree->room->nodes[object] = 1;
    if (references.count > 0 && push(tree, object, &references) < 0)
        return NULL;
    value = references.is_dict ? PyDict_New() : PyList_New((Py_ssize_t)references.count);
    tree->room->made[object] = (Made)value;
    if (value && !references.is_dict)
        hide(&tree->room->made[object]);
    return value;
}

/* Notes that an object of the tree of a container is made. */
static int use(Room *room, uint32_t object)
{
    if (room->count == room->space) {
        size_t space = 2 * room->space + BLOCK;
        uint32_t *moved = PyMem_Realloc(room->used, space * sizeof *moved);

        if (moved == NULL) {
            PyErr_NoMemory();
            return -1;
        }
        room->used = moved;
        room->space = space;
    }
    room->used[room->count++] = object;
    return 0;
}

/* Makes an object. */
static PyObject *make(Tree *tree, Block *block, uint64_t object)
{
    const bplist_body *body;
    PyObject *value;

    if (object >= tree->handle->objects) {
        raise_changed();
        return NULL;
    }
    body = tree_body(tree, block, object);
    if (body == NULL || (!tree->room->is_whole && use(tree->room, (uint32_t)object) < 0))
        return NULL;
    if (is_container(body->kind))
        return container_of(tree, (uint32_t)object, body);
    value = leaf_of(tree->handle->state, &tree->source, body);
    tree->room->made[object] = (Made)value;
    if (body->kind == BPLIST_UID && value)
        hide(&tree->room->made[object]);
    return value;
}

/* Returns what was made for an object, as a borrowed reference, or NULL. */
static inline PyObject *made_of(const Tree *tree, uint64_t object)
{
    return object < tree->handle->objects ? value_in(tree->room->made[object]) : NULL;
}

/* Adds the nodes of a container, which is a member of the last one of the way and counted as one node of that. */
static inline void add_nodes(Tree *tree, uint64_t nodes)
{
    uint64_t *sum = &tree->filling[tree->height - 1].nodes;

    *sum = nodes - 1 > UINT64_MAX - *sum ? UINT64_MAX : *sum + (nodes - 1);
}

/* Returns the value of reference `i`, which is made if it was not yet. */
static inline PyObject *member(Tree *tree, const References *references, uint64_t i)
{
    uint64_t object = reference_at(references, tree->source.file, i);
    PyObject *value = made_of(tree, object);

    if (value == NULL)
        return make(tree, &tree->values, object);
    if (PyDict_CheckExact(value) || PyList_CheckExact(value))
        add_nodes(tree, tree->room->nodes[object]);
    Py_INCREF(value);
    return value;
}

/* Returns key `i` in the same way. Each key was a text when the file was checked. */
static inline PyObject *key_at(Tree *tree, const References *references, uint64_t i)
{
    uint64_t object = reference_at(references, tree->source.file, i);
    PyObject *key = made_of(tree, object);

    if (key)
        Py_INCREF(key);
    else
        key = make(tree, &tree->keys, object);
    if (key && !PyUnicode_CheckExact(key)) {
        Py_DECREF(key);
        raise_changed();
        return NULL;
    }
    return key;
}

/* Gives a dict pair `i`. A key that it has already would take its place and that of its value, and nobody would own
   these. */
static inline int add_pair(Tree *tree, PyObject *dict, const References *references, uint64_t i)
{
    PyObject *key = key_at(tree, references, i);
    PyObject *value = key ? member(tree, references, references->count + i) : NULL;
    int status = value ? PyDict_SetItem(dict, key, value) : -1;

    Py_XDECREF(key);
    Py_XDECREF(value);
    if (status == 0 && (uint64_t)PyDict_Size(dict) != i + 1)
        return raise_changed();
    return status;
}

/* Gives a list member `i`. */
static inline int add_member(Tree *tree, PyObject *list, const References *references, uint64_t i)
{
    PyObject *value = member(tree, references, i);

    return value ? PyList_SetItem(list, (Py_ssize_t)i, value) : -1;
}

/* Takes the last container from the way: its nodes are known now. */
static void leave(Tree *tree)
{
    const Filling *whole = &tree->filling[--tree->height];

    tree->room->nodes[whole->object] = whole->nodes;
    if (tree->height > 0)
        add_nodes(tree, whole->nodes);
}

/* Gives the last container of the way members, until one of them comes behind it on the way. A container that has all
   of them leaves the way. */
static int fill(Tree *tree)
{
    const size_t height = tree->height;
    const Filling filling = tree->filling[height - 1];
    const References *references = &filling.references;
    PyObject *value = value_in(tree->room->made[filling.object]);
    uint64_t i = filling.filled;

    for (; i < references->count && tree->height == height; i++)
        if ((references->is_dict ? add_pair(tree, value, references, i) : add_member(tree, value, references, i)) < 0)
            return -1;
    /* Python makes a dict known to the collector when it gets a container as a value. */
    if (references->is_dict)
        hide(&tree->room->made[filling.object]);
    tree->filling[height - 1].filled = i;
    if (tree->height == height)
        leave(tree);
    return 0;
}

/* Gives all containers on the way their members. */
static int fill_all(Tree *tree)
{
    while (tree->height > 0)
        if (fill(tree) < 0)
            return -1;
    return 0;
}

/* Whether the tree of a root that is whole has too many nodes: a container may occur twice. */
static int is_too_large(const Tree *tree, PyObject *root)
{
    return (PyDict_CheckExact(root) || PyList_CheckExact(root)) && tree->room->nodes[tree->object] > tree->limit;
}

/* Builds the tree of an object. */
static PyObject *tree_build(Tree *tree)
{
    PyObject *root = NULL;

    if (tree->limit > 0)
        root = make(tree, &tree->values, tree->object);
    else
        raise_too_large(tree);
    if (root && fill_all(tree) < 0)
        Py_CLEAR(root);
    if (root && is_too_large(tree, root)) {
        raise_too_large(tree);
        Py_CLEAR(root);
    }
    return root;
}

/* Lets the collector know of what was made, if it was hidden. */
static inline void track(Made made)
{
    if (made & HIDDEN)
        PyObject_GC_Track(value_in(made));
}

/* Lets the collector know of a tree that is whole. */
static void tree_track(const Tree *tree)
{
    const Room *room = tree->room;
    uint64_t count = room->is_whole ? tree->handle->objects : room->count;

    for (uint64_t i = 0; i < count; i++)
        track(room->made[room->is_whole ? i : room->used[i]]);
}

/* Runs the collector if it is due: it looks after that when memory for a container is taken from the heap, as for a
   tuple that is too long to be kept for later. */
static void collect_if_due(void)
{
    PyObject *tuple = PyTuple_New(LONG_TUPLE);

    if (tuple == NULL)
        PyErr_Clear();
    Py_XDECREF(tuple);
}

void room_free(Room *room)
{
    if (room == NULL)
        return;
    PyMem_Free(room->made);
    PyMem_Free(room->nodes);
    PyMem_Free(room->used);
    PyMem_Free(room);
}

/* Makes room for a tree. That of the top needs almost all of it, so all of `made` is written to at once: a page that is
   first read and then written to costs two page faults. */
static Room *room_new(const Handle *self, int is_whole)
{
    size_t size = self->objects * sizeof(Made);
    Room *room = PyMem_Calloc(1, sizeof *room);

    if (room == NULL)
        return NULL;
    room->is_whole = is_whole;
    room->made = is_whole ? PyMem_Malloc(size) : PyMem_Calloc(1, size);
    room->nodes = PyMem_Malloc(self->objects * sizeof *room->nodes);
    if (room->made == NULL || room->nodes == NULL) {
        room_free(room);
        return NULL;
    }
    if (is_whole)
        memset(room->made, 0, size);
    return room;
}

/* Takes the room that the last tree of a container left, or makes room. Other threads run while a tree is measured, and
   may build one too. */
static Room *room_for(Handle *self, uint32_t object)
{
    Room *room = object == self->top ? NULL : self->room;

    if (room == NULL)
        return room_new(self, object == self->top);
    self->room = NULL;
    return room;
}

/* Leaves room for the next tree of a container. */
static void room_leave(Handle *self, Room *room)
{
    if (room->is_whole || self->room || self->source.owner == NULL) {
        room_free(room);
        return;
    }
    for (size_t i = 0; i < room->count; i++)
        room->made[room->used[i]] = 0;
    room->count = 0;
    self->room = room;
}

PyObject *tree_of(Handle *self, uint32_t object, uint64_t limit)
{
    Tree tree;
    PyObject *root;

    if (handle_ready(self) < 0)
        return NULL;
    if (object >= self->objects) {
        raise_status(BPLIST_NO_OBJECT);
        return NULL;
    }
    memset(&tree, 0, offsetof(Tree, keys));
    tree.keys.first = tree.keys.count = tree.values.first = tree.values.count = 0;
    tree.handle = self;
    tree.object = object;
    tree.limit = limit;
    tree.nodes = 1;
    tree.room = room_for(self, object);
    if (tree.room == NULL)
        return PyErr_NoMemory();
    tree.source = self->source;
    Py_INCREF(tree.source.owner);
    stop_collector(&tree);
    root = tree_build(&tree);
    start_collector(&tree);
    if (root && tree.is_collecting)
        collect_if_due();
    if (root)
        tree_track(&tree);
    room_leave(self, tree.room);
    PyMem_Free(tree.filling);
    Py_DECREF(tree.source.owner);
    return root;
}
