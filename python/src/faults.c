/* Exceptions. */
#include "extension.h"

#include <stdarg.h>

int raise_fault(const char *name, const char *arguments, ...)
{
    va_list given;
    PyObject *values, *fault = NULL;
    PyObject *module = PyImport_ImportModule("bplist.faults");
    PyObject *class = module ? PyObject_GetAttrString(module, name) : NULL;

    va_start(given, arguments);
    values = class ? Py_VaBuildValue(arguments, given) : NULL;
    va_end(given);
    if (values)
        fault = PyObject_CallObject(class, values);
    if (fault)
        PyErr_SetObject(class, fault);
    Py_XDECREF(fault);
    Py_XDECREF(values);
    Py_XDECREF(class);
    Py_XDECREF(module);
    return -1;
}

void *raise_cleared(void)
{
    PyErr_SetString(PyExc_RuntimeError, "the module bplist was cleared");
    return NULL;
}

/* Returns the numbers as a tuple. */
static PyObject *tuple_of(const uint32_t *numbers, uint64_t count)
{
    PyObject *tuple = PyTuple_New((Py_ssize_t)count);

    for (uint64_t i = 0; tuple && i < count; i++) {
        PyObject *number = PyLong_FromUnsignedLong(numbers[i]);

        if (number == NULL || PyTuple_SetItem(tuple, (Py_ssize_t)i, number) < 0)
            Py_CLEAR(tuple);
    }
    return tuple;
}

/* Returns the `count` objects of the circle. */
static PyObject *circle_of(const Source *source, uint64_t count)
{
    uint64_t found = 0;
    bplist_status status;
    PyThreadState *thread;
    PyObject *circle = NULL;
    uint32_t *objects = PyMem_Calloc(count, sizeof *objects);

    if (objects == NULL)
        return PyErr_NoMemory();
    thread = PyEval_SaveThread();
    status = bplist_circle(source->file, source->length, objects, count, &found);
    PyEval_RestoreThread(thread);
    if (expect(status) == 0)
        circle = tuple_of(objects, found);
    PyMem_Free(objects);
    return circle;
}

int raise_refused(const Source *source, const bplist_verdict *verdict)
{
    PyObject *circle;

    if (verdict->circle == 0 && !verdict->has_object) {
        Words words;

        /* Only a fault of header, trailer or offset table has words. */
        if (words_of(source, &words) < 0)
            return -1;
        return raise_fault("Refused", "(IOK()z#)", verdict->rule, Py_None, (unsigned long long)verdict->place,
                           words.count ? words.text : NULL, (Py_ssize_t)words.count);
    }
    if (verdict->circle == 0)
        return raise_fault("Refused", "(IIK)", verdict->rule, verdict->object, (unsigned long long)verdict->place);
    circle = circle_of(source, verdict->circle);
    if (circle)
        raise_fault("Refused", "(IIOO)", verdict->rule, verdict->object, Py_None, circle);
    Py_XDECREF(circle);
    return -1;
}

int words_of(const Source *source, Words *words)
{
    bplist_status status;
    PyThreadState *thread = PyEval_SaveThread();

    status = bplist_looks_like(source->file, source->length, words->text, sizeof words->text, &words->count);
    PyEval_RestoreThread(thread);
    return expect(status);
}

int raise_changed(void)
{
    return raise_fault("Error", "(s)", "the file was changed while it was open");
}

int raise_changed_for(PyObject *class)
{
    if (!PyErr_ExceptionMatches(class))
        return -1;
    PyErr_Clear();
    return raise_changed();
}

int raise_status(bplist_status status)
{
    char text[200];
    uint64_t count = 0;

    if (status == BPLIST_MEMORY)
        return raise_fault("OutOfMemory", "(s)", "the library was refused memory");
    if (status == BPLIST_CLOSED)
        return raise_fault("Closed", "(s)", "the property list was closed");
    /* While an open file does not change there is no other status. Every text fits the buffer. */
    if (bplist_status_text(status, text, sizeof text, &count) != BPLIST_OK)
        count = 0;
    return raise_fault("Error", "(s#)", text, (Py_ssize_t)count);
}
