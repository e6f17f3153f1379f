/* The values of leaves, that is of objects that are not containers. */
#include "extension.h"

#include <wchar.h>

/* The largest number of units that are decoded in a buffer on the stack. */
#define FEW 64

_Static_assert(sizeof(wchar_t) == 4, "a character of wchar_t is one of Python's");

/* Decodes an IEEE 754 number of 4 or 8 bytes. */
static double real_of(const uint8_t *bytes, uint64_t length)
{
    uint64_t bits = number_at(bytes, length);
    uint32_t few = (uint32_t)bits;
    double real;
    float single;

    if (length == sizeof single) {
        memcpy(&single, &few, sizeof single);
        return single;
    }
    memcpy(&real, &bits, sizeof real);
    return real;
}

/* Makes an integer of 16 bytes in two's complement. */
static PyObject *long_of(const uint8_t *bytes)
{
    PyObject *high = PyLong_FromLongLong((long long)number_at(bytes, 8));
    PyObject *low = PyLong_FromUnsignedLongLong(number_at(bytes + 8, 8));
    PyObject *bits = PyLong_FromLong(64);
    PyObject *shifted = high && low && bits ? PyNumber_Lshift(high, bits) : NULL;
    PyObject *number = shifted ? PyNumber_Or(shifted, low) : NULL;

    Py_XDECREF(high);
    Py_XDECREF(low);
    Py_XDECREF(bits);
    Py_XDECREF(shifted);
    return number;
}

/* Makes an integer. One of 1, 2 or 4 bytes is unsigned, one of 8 or 16 bytes is signed. */
static PyObject *integer_of(const uint8_t *bytes, uint64_t length)
{
    return length == 16 ? long_of(bytes) : PyLong_FromLongLong((long long)number_at(bytes, length));
}

/* Makes a UID without calling its __init__, which takes longer than everything else. Its __new__ makes room for the
   attribute; without it, the attribute would take a dict. */
static PyObject *bare_uid(State *state, PyObject *number)
{
    PyTypeObject *class = (PyTypeObject *)state->held[UID];
    newfunc make = (newfunc)PyType_GetSlot(class, Py_tp_new);
    PyObject *arguments = PyTuple_New(0);
    PyObject *uid = arguments ? make(class, arguments, NULL) : NULL;

    Py_XDECREF(arguments);
    if (uid && PyObject_SetAttr(uid, state->held[UID_DATA], number) < 0)
        Py_CLEAR(uid);
    return uid;
}

/* Asks for the class of UIDs, for the first of them. That may run any code: it loads plistlib. */
static int know_uids(State *state)
{
    PyObject *told, *class, *data;

    if (state->held[UID])
        return 0;
    if (state->held[UID_CLASS] == NULL) {
        raise_cleared();
        return -1;
    }
    told = PyObject_CallNoArgs(state->held[UID_CLASS]);
    if (told == NULL)
        return -1;
    if (!PyArg_ParseTuple(told, "O!O", &PyType_Type, &class, &data) || !is_made(class)) {
        Py_DECREF(told);
        return -1;
    }
    if (state->held[UID] == NULL) {
        Py_INCREF(class);
        Py_INCREF(data);
        state->held[UID] = class;
        state->held[UID_DATA] = data;
    }
    Py_DECREF(told);
    return 0;
}

static PyObject *uid_of(State *state, const uint8_t *bytes, uint64_t length)
{
    PyObject *uid, *number = PyLong_FromUnsignedLongLong(number_at(bytes, length));

    if (number == NULL)
        return NULL;
    if (know_uids(state) < 0) {
        Py_DECREF(number);
        return NULL;
    }
    if (state->held[UID_DATA] == Py_None)
        uid = PyObject_CallFunctionObjArgs(state->held[UID], number, NULL);
    else
        uid = bare_uid(state, number);
    Py_DECREF(number);
    return uid;
}

PyObject *ascii_of(PyObject *owner, const char *bytes, size_t length)
{
    PyObject *text;

    Py_XINCREF(owner);
    text = PyUnicode_DecodeASCII(bytes, (Py_ssize_t)length, NULL);
    if (text == NULL)
        raise_changed_for(PyExc_UnicodeDecodeError);
    Py_XDECREF(owner);
    return text;
}

/* Decodes big-endian UTF-16 into `text`, which has room for each unit. Keeps an unpaired surrogate as it is. */
static PyObject *units_of(const uint8_t *bytes, size_t units, wchar_t *text)
{
    Py_ssize_t length = 0;

    for (size_t i = 0; i < units; i++) {
        wchar_t unit = bytes[2 * i] << 8 | bytes[2 * i + 1];

        if (unit >> 10 == 0xdc00 >> 10 && length > 0 && text[length - 1] >> 10 == 0xd800 >> 10)
            text[length - 1] = 0x10000 + ((text[length - 1] & 0x3ff) << 10 | (unit & 0x3ff));
        else
            text[length++] = unit;
    }
    return PyUnicode_FromWideChar(text, length);
}

/* Decodes the same in memory of its own. The codec's own way to keep surrogates takes sixty times as long for each. */
static PyObject *many_of(const uint8_t *bytes, size_t units)
{
    wchar_t *text = PyMem_Malloc(units * sizeof *text);
    PyObject *decoded;

    if (text == NULL)
        return PyErr_NoMemory();
    decoded = units_of(bytes, units, text);
    PyMem_Free(text);
    return decoded;
}

/* Decodes big-endian UTF-16. A short text needs no codec, which takes four times as long. A long one is decoded by the
   codec, which refuses unpaired surrogates. To make its exception may start the collector, and so run any code: the
   bytes are kept. */
static PyObject *wide_of(PyObject *owner, const uint8_t *bytes, size_t units)
{
    int order = 1;
    wchar_t few[FEW];
    PyObject *text;

    if (units <= FEW)
        return units_of(bytes, units, few);
    Py_INCREF(owner);
    text = PyUnicode_DecodeUTF16((const char *)bytes, (Py_ssize_t)(2 * units), NULL, &order);
    if (text == NULL && PyErr_ExceptionMatches(PyExc_UnicodeDecodeError)) {
        PyErr_Clear();
        text = many_of(bytes, units);
    }
    Py_DECREF(owner);
    return text;
}

PyObject *leaf_of(State *state, const Source *source, const bplist_body *body)
{
    const uint8_t *bytes = source->file + body->place;
    Py_ssize_t length = (Py_ssize_t)body->length;

    switch (body->kind) {
    case BPLIST_NULL:
        Py_RETURN_NONE;
    case BPLIST_FALSE:
        Py_RETURN_FALSE;
    case BPLIST_TRUE:
        Py_RETURN_TRUE;
    case BPLIST_INT:
        return integer_of(bytes, body->length);
    case BPLIST_UID:
        return uid_of(state, bytes, body->length);
    case BPLIST_REAL:
        return PyFloat_FromDouble(real_of(bytes, body->length));
    case BPLIST_DATE:
        return date_of(state, real_of(bytes, body->length));
    case BPLIST_DATA:
        return PyBytes_FromStringAndSize((const char *)bytes, length);
    case BPLIST_ASCII:
        return ascii_of(source->owner, (const char *)bytes, body->length);
    case BPLIST_WIDE:
        return wide_of(source->owner, bytes, (size_t)length / 2);
    default:
        raise_changed();
        return NULL;
    }
}
