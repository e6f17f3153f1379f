/* Dates: seconds since 2001-01-01 00:00:00 UTC. */
#include "extension.h"

#define SECOND INT64_C(1000000)
#define DAY (86400 * SECOND)
/* The number of days in the range of datetime before 2001, and from 2001 on. */
#define BEFORE 730485
#define BEHIND 2921574
/* The number of days from 1 March of the year 0 to 1 January of the year 1. */
#define FROM_MARCH 306
/* The length of the form in which datetime pickles a date. */
#define PICKLED 10

/* Rounds to microseconds, halves to the even one, as datetime.timedelta does. */
static int64_t micros_of(double seconds)
{
    int64_t whole = (int64_t)seconds;
    double part = (seconds - (double)whole) * (double)SECOND;
    int64_t micros = (int64_t)part;
    double rest = part - (double)micros;

    if (rest > 0.5 || (rest == 0.5 && micros % 2 != 0))
        micros++;
    if (rest < -0.5 || (rest == -0.5 && micros % 2 != 0))
        micros--;
    return whole * SECOND + micros;
}

/* Writes a date, given in microseconds since the year 1, in the form in which datetime pickles it. Making a datetime
   from that form takes a fifth of the time that making it from numbers takes. Years begin in March here, so that the
   leap day is the last day of its year. An era is 400 years, or 146097 days. */
static void pickled(int64_t micros, unsigned char out[PICKLED])
{
    int days = (int)(micros / DAY) + FROM_MARCH;
    int of_era = days % 146097;
    int year = (of_era - of_era / 1460 + of_era / 36524 - of_era / 146096) / 365;
    int of_year = of_era - (365 * year + year / 4 - year / 100);
    int months = (5 * of_year + 2) / 153;
    int month = months < 10 ? months + 3 : months - 9;
    int seconds = (int)(micros % DAY / SECOND);
    int rest = (int)(micros % SECOND);

    year += days / 146097 * 400 + (month <= 2);
    out[0] = (unsigned char)(year >> 8);
    out[1] = (unsigned char)year;
    out[2] = (unsigned char)month;
    out[3] = (unsigned char)(of_year - (153 * months + 2) / 5 + 1);
    out[4] = (unsigned char)(seconds / 3600);
    out[5] = (unsigned char)(seconds / 60 % 60);
    out[6] = (unsigned char)(seconds % 60);
    out[7] = (unsigned char)(rest >> 16);
    out[8] = (unsigned char)(rest >> 8);
    out[9] = (unsigned char)rest;
}

PyObject *date_arguments(void)
{
    PyObject *given = PyBytes_FromStringAndSize(NULL, PICKLED);
    PyObject *arguments = given ? PyTuple_Pack(1, given) : NULL;

    Py_XDECREF(given);
    return arguments;
}

/* Returns arguments that nobody else refers to: those of the last date, or new ones if a subclass of datetime kept
   them. */
static PyObject *arguments_of(State *state)
{
    PyObject *arguments = state->held[DATE_ARGUMENTS];

    if (arguments && Py_REFCNT(arguments) == 1 && Py_REFCNT(PyTuple_GetItem(arguments, 0)) == 1) {
        Py_INCREF(arguments);
        return arguments;
    }
    return date_arguments();
}

/* Makes a datetime. Its __new__ is called without its type, which takes a third of the time. */
static PyObject *moment(State *state, int64_t micros)
{
    PyTypeObject *class = (PyTypeObject *)state->held[DATETIME];
    newfunc make = (newfunc)PyType_GetSlot(class, Py_tp_new);
    PyObject *arguments = arguments_of(state);
    PyObject *date;

    if (arguments == NULL)
        return NULL;
    pickled(micros, (unsigned char *)PyBytes_AsString(PyTuple_GetItem(arguments, 0)));
    date = make(class, arguments, NULL);
    Py_DECREF(arguments);
    return date;
}

PyObject *date_of(State *state, double seconds)
{
    int64_t micros;

    if (state->held[DATETIME] == NULL)
        return raise_cleared();
    /* One day too many at either end. This only excludes what is far out of range or is not a number. */
    if (seconds > -86400.0 * (BEFORE + 1) && seconds < 86400.0 * (BEHIND + 1)) {
        micros = micros_of(seconds) + BEFORE * DAY;
        if (micros >= 0 && micros < (BEFORE + BEHIND) * DAY)
            return moment(state, micros);
    }
    return PyObject_CallFunction(state->held[FAR_DATE], "d", seconds);
}
