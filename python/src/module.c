/* The module bplist._bplist. */
#include "extension.h"

void *instance_with(PyObject *type, Py_ssize_t items)
{
    allocfunc alloc;

    if (type == NULL)
        return raise_cleared();
    alloc = (allocfunc)PyType_GetSlot((PyTypeObject *)type, Py_tp_alloc);
    return alloc((PyTypeObject *)type, items);
}

void *instance_of(PyObject *type)
{
    return instance_with(type, 0);
}

static PyObject *lint(PyObject *module, PyObject *owner)
{
    Source source;
    bplist_verdict said;
    bplist_status status;
    PyThreadState *thread;

    if (source_of(PyModule_GetState(module), owner, &source) < 0)
        return NULL;
    thread = PyEval_SaveThread();
    status = bplist_lint(source.file, source.length, &said);
    PyEval_RestoreThread(thread);
    if (status == BPLIST_FAULT) {
        raise_refused(&source, &said);
        return NULL;
    }
    if (expect(status) < 0)
        return NULL;
    return Py_BuildValue("(KKKIII)", (unsigned long long)said.objects, (unsigned long long)said.reached,
                         (unsigned long long)said.references, said.height, said.top, said.top_kind);
}

static PyObject *looks_like(PyObject *module, PyObject *owner)
{
    Source source;
    Words words;

    if (source_of(PyModule_GetState(module), owner, &source) < 0)
        return NULL;
    if (words_of(&source, &words) < 0)
        return NULL;
    if (words.count == 0)
        Py_RETURN_NONE;
    return ascii_of(NULL, words.text, words.count);
}

/* Returns true if a class is a subclass of one of the module's own. Otherwise raises TypeError, or that the
   module was cleared. */
static int is_below(PyObject *class, PyObject *own)
{
    if (own == NULL) {
        raise_cleared();
        return 0;
    }
    if (PyType_IsSubtype((PyTypeObject *)class, (PyTypeObject *)own))
        return 1;
    PyErr_Format(PyExc_TypeError, "%R is no subclass of %R", class, own);
    return 0;
}

static PyObject *open_source(PyObject *module, PyObject *arguments)
{
    State *state = PyModule_GetState(module);
    PyObject *class, *owner, *certificate;
    int is_sorted;

    if (!PyArg_ParseTuple(arguments, "O!OOp", &PyType_Type, &class, &owner, &certificate, &is_sorted))
        return NULL;
    if (!is_below(class, state->held[HANDLE]))
        return NULL;
    return handle_open(state, class, owner, certificate, is_sorted);
}

static PyObject *map_file(PyObject *module, PyObject *arguments)
{
    int descriptor;
    Py_ssize_t length;

    if (!PyArg_ParseTuple(arguments, "in", &descriptor, &length))
        return NULL;
    return mapped_new(PyModule_GetState(module), descriptor, (size_t)length);
}

typedef bplist_status (*Texts)(uint32_t number, char *text, size_t room, uint64_t *count);

/* Returns a text of the library. Each has at most 200 bytes. */
static PyObject *text_of(Texts texts, PyObject *given)
{
    unsigned long number = PyLong_AsUnsignedLong(given);
    char text[200];
    uint64_t count;

    if (number == (unsigned long)-1 && PyErr_Occurred())
        return NULL;
    if (number > UINT32_MAX || texts((uint32_t)number, text, sizeof text, &count) != BPLIST_OK) {
        PyErr_Format(PyExc_ValueError, "no number of a rule: %lu", number);
        return NULL;
    }
    return PyUnicode_DecodeASCII(text, (Py_ssize_t)count, NULL);
}

static PyObject *rule_name(PyObject *module, PyObject *number)
{
    (void)module;
    return text_of(bplist_rule_name, number);
}

static PyObject *rule_text(PyObject *module, PyObject *number)
{
    (void)module;
    return text_of(bplist_rule_text, number);
}

int is_made(PyObject *class)
{
    if (PyType_GetSlot((PyTypeObject *)class, Py_tp_new))
        return 1;
    PyErr_Format(PyExc_TypeError, "%R has no instances", class);
    return 0;
}

static PyObject *bind(PyObject *module, PyObject *arguments)
{
    State *state = PyModule_GetState(module);
    PyTypeObject *type = &PyType_Type;
    PyObject *given[BOUND];

    if (!PyArg_ParseTuple(arguments, "O!O!O!O!OO!", type, &given[ARRAY], type, &given[SET], type, &given[DICT], type,
                          &given[FAR_DATE], &given[UID_CLASS], type, &given[DATETIME]))
        return NULL;
    if (!is_made(given[DATETIME]))
        return NULL;
    for (int i = ARRAY; i <= DICT; i++)
        if (!is_below(given[i], state->held[CONTAINER]))
            return NULL;
    given[DATE_ARGUMENTS] = date_arguments();
    if (given[DATE_ARGUMENTS] == NULL)
        return NULL;
    for (int i = ARRAY; i < BOUND; i++) {
        PyObject *old = state->held[i];

        if (i != DATE_ARGUMENTS)
            Py_INCREF(given[i]);
        state->held[i] = given[i];
        Py_XDECREF(old);
    }
    Py_RETURN_NONE;
}

static PyMethodDef functions[] = {
    {"lint", lint, METH_O, "Returns the numbers of a sound file, for `Verdict`. Raises `Refused` if the file holds no value."},
    {"looks_like", looks_like, METH_O, "What a file looks like that holds no value, in words, or None if that is not known."},
    {"open", open_source, METH_VARARGS, "Opens the bytes of a file as an instance of a subclass of Handle."},
    {"map_file", map_file, METH_VARARGS, "Maps this many bytes of an open file into memory."},
    {"rule_name", rule_name, METH_O, "The name of a rule."},
    {"rule_text", rule_text, METH_O, "What a rule requires."},
    {"bind", bind, METH_VARARGS, "Sets the classes to use, and what tells that of UIDs."},
    {NULL, NULL, 0, NULL},
};

static int fill_module(PyObject *module)
{
    State *state = PyModule_GetState(module);
    PyType_Spec *specs[] = {&mapped_spec, &handle_spec, &container_spec, &members_spec};

    for (int i = MAPPED; i <= MEMBERS; i++) {
        state->held[i] = PyType_FromModuleAndSpec(module, specs[i], NULL);
        if (state->held[i] == NULL || PyModule_AddType(module, (PyTypeObject *)state->held[i]) < 0)
            return -1;
    }
    return PyModule_AddStringConstant(module, "VERSION", BPLIST_VERSION);
}

static int traverse(PyObject *module, visitproc visit, void *arg)
{
    State *state = PyModule_GetState(module);

    for (int i = 0; i < HELD; i++)
        Py_VISIT(state->held[i]);
    return 0;
}

static int clear(PyObject *module)
{
    State *state = PyModule_GetState(module);

    for (int i = 0; i < HELD; i++)
        Py_CLEAR(state->held[i]);
    return 0;
}

static void free_module(void *module)
{
    clear(module);
}

static PyModuleDef_Slot slots[] = {
    {Py_mod_exec, fill_module},
    {0, NULL},
};

static struct PyModuleDef definition = {
    PyModuleDef_HEAD_INIT,
    .m_name = "_bplist",
    .m_doc = "The C library libbplist, as Python objects.",
    .m_size = sizeof(State),
    .m_methods = functions,
    .m_slots = slots,
    .m_traverse = traverse,
    .m_clear = clear,
    .m_free = free_module,
};

PyMODINIT_FUNC PyInit__bplist(void)
{
    return PyModuleDef_Init(&definition);
}
