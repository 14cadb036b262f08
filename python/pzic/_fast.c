/* The classes of _cache.py and the functions of _calls.py in C, with the same answers. What isn't cached yet, the
   classes look up in their subclasses. The functions are given the addresses of the library's calls. */
#define PY_SSIZE_T_CLEAN
#include <Python.h>
#include <datetime.h>
#include <stdint.h>
#include <string.h>

#if defined(PYPY_VERSION) || defined(Py_GIL_DISABLED)
#error "this is for CPython with its lock"
#endif

/* Python's own class. It is the same in all interpreters of a process. */
static PyTypeObject *datetime_type;

/* ------------------------------------------------------------------ dates and times */

/* What the answers of a year are about: local times with fold=0 and with fold=1, or UT. */
enum { UT = 2, KINDS = 3 };
/* Years are stored in pages. */
enum { PAGE = 128, LAST_YEAR = 9999, PAGES = LAST_YEAR / PAGE + 1 };
/* The items of the answer for a local time, and for a UT. */
enum { OFFSET, SAVED, NAME, TOLD };
enum { DELTA, AGAIN, MOVED };

/* A part of a year: what the last time of it shows, and the answer up to then. The bytes are the year, month,
   day, hour, minute, second and microsecond, each with the highest byte first. */
typedef struct {
    unsigned char last[_PyDateTime_DATETIME_DATASIZE];
    PyObject *facts;
} Part;

typedef struct {
    Py_ssize_t count;
    Part parts[];
} Year;

typedef struct {
    PyDateTime_TZInfo base;
    /* Each year, once it was looked up. None ever changes. */
    Year **pages[KINDS][PAGES];
} Years;

static int is_datetime(PyObject *object) {
    return PyObject_TypeCheck(object, datetime_type);
}

static PyObject *zone_of(PyObject *dt) {
    PyDateTime_DateTime *fields = (PyDateTime_DateTime *)dt;
    return fields->hastzinfo ? fields->tzinfo : Py_None;
}

/* Returns whether these are parts of a year: pairs of the last time of each and the answer up to then. */
static int are_parts(PyObject *parts, Py_ssize_t facts) {
    if (!PyTuple_Check(parts))
        return 0;
    for (Py_ssize_t i = 0; i < PyTuple_GET_SIZE(parts); i++) {
        PyObject *part = PyTuple_GET_ITEM(parts, i);
        if (!PyTuple_Check(part) || PyTuple_GET_SIZE(part) != 2 || !is_datetime(PyTuple_GET_ITEM(part, 0)))
            return 0;
        PyObject *item = PyTuple_GET_ITEM(part, 1);
        if (!PyTuple_Check(item) || PyTuple_GET_SIZE(item) != facts)
            return 0;
    }
    return 1;
}

/* Returns the place of a year, or NULL with an error. Python takes any bytes for the year of a pickle. */
static Year **place_of(Years *self, int kind, int year) {
    if (year > LAST_YEAR) {
        PyErr_Format(PyExc_ValueError, "year %i is out of range", year);
        return NULL;
    }
    Year ***page = &self->pages[kind][year / PAGE];
    if (!*page)
        *page = PyMem_Calloc(PAGE, sizeof **page);
    if (!*page)
        PyErr_NoMemory();
    return *page ? *page + year % PAGE : NULL;
}

static void free_year(Year *year) {
    for (Py_ssize_t i = 0; i < year->count; i++)
        Py_DECREF(year->parts[i].facts);
    PyMem_Free(year);
}

/* Returns a year of these parts, or NULL without memory. */
static Year *year_of(PyObject *parts) {
    Py_ssize_t count = PyTuple_GET_SIZE(parts);
    Year *year = PyMem_Malloc(sizeof *year + (size_t)count * sizeof(Part));
    if (!year) {
        PyErr_NoMemory();
        return NULL;
    }
    year->count = count;
    for (Py_ssize_t i = 0; i < count; i++) {
        PyObject *part = PyTuple_GET_ITEM(parts, i);
        PyDateTime_DateTime *last = (PyDateTime_DateTime *)PyTuple_GET_ITEM(part, 0);
        memcpy(year->parts[i].last, last->data, sizeof year->parts[i].last);
        year->parts[i].facts = PyTuple_GET_ITEM(part, 1);
        Py_INCREF(year->parts[i].facts);
    }
    return year;
}

/* Asks for a year, and keeps it in its place. Returns it, or NULL with an error. */
static Year *make_year(Years *self, int kind, int number, Year **place) {
    Year *year = NULL;
    PyObject *parts = PyObject_CallMethod((PyObject *)self, "_parts", "ii", kind, number);
    if (parts && are_parts(parts, kind == UT ? MOVED : TOLD))
        year = year_of(parts);
    else if (parts)
        PyErr_SetString(PyExc_TypeError, "parts of a year are wanted");
    Py_XDECREF(parts);
    /* Another thread may have been first. */
    if (year && *place)
        free_year(year);
    else if (year)
        *place = year;
    return year ? *place : NULL;
}

/* Returns the answer in the part of a year that a time is in, which stays while the zone does. */
static PyObject *find(Years *self, int kind, PyObject *dt) {
    int number = PyDateTime_GET_YEAR(dt);
    Year **place = place_of(self, kind, number);
    if (!place)
        return NULL;
    Year *year = *place ? *place : make_year(self, kind, number, place);
    if (!year)
        return NULL;
    const unsigned char *shown = ((PyDateTime_DateTime *)dt)->data;
    for (Py_ssize_t i = 0; i < year->count; i++) {
        if (memcmp(shown, year->parts[i].last, sizeof year->parts[i].last) <= 0)
            return year->parts[i].facts;
    }
    PyErr_SetString(PyExc_AssertionError, "a year has an end");
    return NULL;
}

/* Returns an item of the answer for a local time. */
static PyObject *tell(PyObject *self, PyObject *dt, Py_ssize_t item) {
    PyObject *facts, *answer;
    if (dt == Py_None) {
        facts = PyObject_CallMethod(self, "_always", NULL);
        answer = facts ? PySequence_GetItem(facts, item) : NULL;
        Py_XDECREF(facts);
        return answer;
    }
    if (!is_datetime(dt)) {
        PyErr_SetString(PyExc_TypeError, "a datetime is wanted");
        return NULL;
    }
    facts = find((Years *)self, PyDateTime_DATE_GET_FOLD(dt) ? 1 : 0, dt);
    if (!facts)
        return NULL;
    answer = PyTuple_GET_ITEM(facts, item);
    Py_INCREF(answer);
    return answer;
}

static PyObject *years_utcoffset(PyObject *self, PyObject *dt) {
    return tell(self, dt, OFFSET);
}

static PyObject *years_dst(PyObject *self, PyObject *dt) {
    return tell(self, dt, SAVED);
}

static PyObject *years_tzname(PyObject *self, PyObject *dt) {
    return tell(self, dt, NAME);
}

/* Returns a time with fold=1, in place of one that is given up. */
static PyObject *with_fold(PyObject *shown) {
    if (Py_TYPE(shown) == datetime_type && Py_REFCNT(shown) == 1) {
        ((PyDateTime_DateTime *)shown)->fold = 1;
        return shown;
    }
    PyObject *replace = PyObject_GetAttrString(shown, "replace");
    PyObject *none = PyTuple_New(0);
    PyObject *words = Py_BuildValue("{s:i}", "fold", 1);
    PyObject *folded = replace && none && words ? PyObject_Call(replace, none, words) : NULL;
    Py_XDECREF(replace);
    Py_XDECREF(none);
    Py_XDECREF(words);
    Py_DECREF(shown);
    return folded;
}

static PyObject *years_fromutc(PyObject *self, PyObject *dt) {
    if (!is_datetime(dt)) {
        PyErr_SetString(PyExc_TypeError, "fromutc: a datetime is wanted");
        return NULL;
    }
    if (zone_of(dt) != self) {
        PyErr_SetString(PyExc_ValueError, "fromutc: dt.tzinfo is not self");
        return NULL;
    }
    PyObject *moved = find((Years *)self, UT, dt);
    PyObject *shown = moved ? PyNumber_Add(dt, PyTuple_GET_ITEM(moved, DELTA)) : NULL;
    return shown && PyTuple_GET_ITEM(moved, AGAIN) == Py_True ? with_fold(shown) : shown;
}

static void years_dealloc(PyObject *self) {
    PyTypeObject *type = Py_TYPE(self);
    for (int i = 0; i < KINDS * PAGES; i++) {
        Year **page = ((Years *)self)->pages[i / PAGES][i % PAGES];
        for (int year = 0; page && year < PAGE; year++) {
            if (page[year])
                free_year(page[year]);
        }
        PyMem_Free(page);
    }
    type->tp_free(self);
    Py_DECREF(type);
}

static PyMethodDef years_methods[] = {
    {"utcoffset", years_utcoffset, METH_O,
     PyDoc_STR("utcoffset($self, dt, /)\n--\n\n"
               "Return the UT offset at a local time. Without one, return it if it is always the same.")},
    {"dst", years_dst, METH_O,
     PyDoc_STR("dst($self, dt, /)\n--\n\n"
               "Return 0 in standard time, and else by how much the offset differs from that before or\n"
               "after. Files don't tell it, so this is a guess, and 1 hour where neither is standard time.")},
    {"tzname", years_tzname, METH_O,
     PyDoc_STR("tzname($self, dt, /)\n--\n\nReturn the abbreviation at a local time.")},
    {"fromutc", years_fromutc, METH_O,
     PyDoc_STR("fromutc($self, dt, /)\n--\n\nReturn local time at a UT, with its fold.")},
    {NULL, NULL, 0, NULL},
};

static PyType_Slot years_slots[] = {
    {Py_tp_doc, "A tzinfo that answers for each time by its part of its year."},
    {Py_tp_methods, years_methods},
    {Py_tp_dealloc, years_dealloc},
    {0, NULL},
};

static PyType_Spec years_spec = {
    .name = "pzic._fast.Years",
    .basicsize = sizeof(Years),
    .flags = Py_TPFLAGS_DEFAULT | Py_TPFLAGS_BASETYPE,
    .slots = years_slots,
};

/* ------------------------------------------------------------------ instants */

/* A span is kept for the instants near the one at which it was looked up: those with the same bits above
   these, 48 days. For most of them there are at most two. */
enum { SLOT_BITS = 22, SLOTS = 1024, IN_SLOT = 2 };
/* The items of a span. */
enum { STATE, SPAN_FIRST, SPAN_LAST, SPAN };

typedef PyObject *Slot[IN_SLOT];

typedef struct {
    PyObject_HEAD
    /* The spans by the lowest bits of what their instants share, the newest first. NULL before the first. */
    Slot *slots;
} Spans;

/* Returns whether this is a span: a state or None, and two integers of 64 bits. */
static int is_span(PyObject *span) {
    if (!PyTuple_Check(span) || PyTuple_GET_SIZE(span) != SPAN)
        return 0;
    PyObject *state = PyTuple_GET_ITEM(span, STATE);
    if (state != Py_None && (!PyTuple_Check(state) || PyTuple_GET_SIZE(state) == 0))
        return 0;
    for (int item = SPAN_FIRST; item <= SPAN_LAST; item++) {
        PyObject *instant = PyTuple_GET_ITEM(span, item);
        int overflow = 1;
        if (PyLong_Check(instant))
            PyLong_AsLongLongAndOverflow(instant, &overflow);
        if (overflow)
            return 0;
    }
    return 1;
}

static int holds(PyObject *span, long long instant) {
    return PyLong_AsLongLong(PyTuple_GET_ITEM(span, SPAN_FIRST)) <= instant &&
           instant <= PyLong_AsLongLong(PyTuple_GET_ITEM(span, SPAN_LAST));
}

static size_t slot_of(long long instant) {
    return (uint64_t)instant >> SLOT_BITS & (SLOTS - 1);
}

/* Returns the span that is cached for an instant, or NULL. */
static PyObject *find_span(Spans *self, long long instant) {
    for (int i = 0; self->slots && i < IN_SLOT; i++) {
        PyObject *span = self->slots[slot_of(instant)][i];
        if (span && holds(span, instant))
            return span;
    }
    return NULL;
}

/* Keeps a span for instants near one. Returns 0, or -1 without memory. */
static int keep(Spans *self, long long instant, PyObject *span) {
    if (!self->slots)
        self->slots = PyMem_Calloc(SLOTS, sizeof(Slot));
    if (!self->slots) {
        PyErr_NoMemory();
        return -1;
    }
    PyObject **slot = self->slots[slot_of(instant)];
    PyObject *oldest = slot[IN_SLOT - 1];
    memmove(slot + 1, slot, (IN_SLOT - 1) * sizeof *slot);
    Py_INCREF(span);
    slot[0] = span;
    Py_XDECREF(oldest);
    return 0;
}

/* Asks for the span at an instant, and keeps it if the instant has 64 bits. */
static PyObject *make_span(PyObject *self, PyObject *argument, long long instant, int overflow) {
    PyObject *span = PyObject_CallMethod(self, "_look_up", "O", argument);
    if (!span)
        return NULL;
    if (!is_span(span)) {
        PyErr_SetString(PyExc_TypeError, "a span is wanted");
    } else if (overflow || keep((Spans *)self, instant, span) == 0) {
        return span;
    }
    Py_DECREF(span);
    return NULL;
}

static PyObject *span_at(PyObject *self, PyObject *argument) {
    int overflow;
    PyObject *number = PyNumber_Index(argument);
    if (!number)
        return NULL;
    long long instant = PyLong_AsLongLongAndOverflow(number, &overflow);
    PyObject *span = overflow ? NULL : find_span((Spans *)self, instant);
    if (span)
        Py_INCREF(span);
    else
        span = make_span(self, number, instant, overflow);
    Py_DECREF(number);
    return span;
}

static PyObject *state_at(PyObject *self, PyObject *argument) {
    PyObject *span = span_at(self, argument);
    PyObject *state = span ? PyTuple_GET_ITEM(span, STATE) : NULL;
    Py_XINCREF(state);
    Py_XDECREF(span);
    return state;
}

/* Returns the only word of a call, which may have the name `instant`. */
static PyObject *only(const char *call, PyObject *const *words, Py_ssize_t count, PyObject *names) {
    Py_ssize_t named = names ? PyTuple_GET_SIZE(names) : 0;
    if (count + named == 1 &&
        (named == 0 || PyUnicode_CompareWithASCIIString(PyTuple_GET_ITEM(names, 0), "instant") == 0))
        return words[0];
    PyErr_Format(PyExc_TypeError, "%s() takes one argument, 'instant'", call);
    return NULL;
}

static PyObject *spans_span(PyObject *self, PyObject *const *words, Py_ssize_t count, PyObject *names) {
    PyObject *argument = only("span", words, count, names);
    return argument ? span_at(self, argument) : NULL;
}

static PyObject *spans_at(PyObject *self, PyObject *const *words, Py_ssize_t count, PyObject *names) {
    PyObject *argument = only("at", words, count, names);
    return argument ? state_at(self, argument) : NULL;
}

static PyObject *spans_utcoffset(PyObject *self, PyObject *const *words, Py_ssize_t count, PyObject *names) {
    PyObject *argument = only("utcoffset", words, count, names);
    PyObject *state = argument ? state_at(self, argument) : NULL;
    PyObject *offset = state && state != Py_None ? PyTuple_GET_ITEM(state, OFFSET) : NULL;
    Py_XINCREF(offset);
    if (state == Py_None)
        PyErr_Format(PyExc_LookupError, "local time is left open at %S", argument);
    Py_XDECREF(state);
    return offset;
}

/* Gives up what is cached. */
static void forget(Spans *self) {
    Slot *slots = self->slots;
    self->slots = NULL;
    for (int i = 0; slots && i < SLOTS * IN_SLOT; i++)
        Py_XDECREF(slots[i / IN_SLOT][i % IN_SLOT]);
    PyMem_Free(slots);
}

static int spans_init(PyObject *self, PyObject *words, PyObject *named) {
    static char *none[] = {NULL};
    forget((Spans *)self);
    return PyArg_ParseTupleAndKeywords(words, named, "", none) ? 0 : -1;
}

static void spans_dealloc(PyObject *self) {
    PyTypeObject *type = Py_TYPE(self);
    forget((Spans *)self);
    type->tp_free(self);
    Py_DECREF(type);
}

#define BY_NAME(call) (PyCFunction)(void (*)(void))(call), METH_FASTCALL | METH_KEYWORDS

static PyMethodDef spans_methods[] = {
    {"at", BY_NAME(spans_at),
     PyDoc_STR("at($self, /, instant)\n--\n\n"
               "Return local time at an instant, or ``None`` where the file leaves it open.")},
    {"utcoffset", BY_NAME(spans_utcoffset),
     PyDoc_STR("utcoffset($self, /, instant)\n--\n\nReturn the UT offset in seconds, positive east.\n\n"
               "Raises :class:`LookupError` where the file leaves local time open.")},
    {"span", BY_NAME(spans_span),
     PyDoc_STR("span($self, /, instant)\n--\n\n"
               "Return local time at an instant, and the instants round it at which it is the same.")},
    {NULL, NULL, 0, NULL},
};

static PyType_Slot spans_slots[] = {
    {Py_tp_doc, "What tells of an instant what its span tells."},
    {Py_tp_methods, spans_methods},
    {Py_tp_init, spans_init},
    {Py_tp_dealloc, spans_dealloc},
    {0, NULL},
};

static PyType_Spec spans_spec = {
    .name = "pzic._fast.Spans",
    .basicsize = sizeof(Spans),
    .flags = Py_TPFLAGS_DEFAULT | Py_TPFLAGS_BASETYPE,
    .slots = spans_slots,
};

/* ------------------------------------------------------------------ calls of the library */

/* The statuses of pzic.h that say nothing of what a call was given, or that there is nothing to tell. */
enum { OK = 0, NO_MEMORY = 2, NO_HANDLE = 4, LENGTHS = 5, OUT_OF_RANGE = 9 };
/* The most items that a call is given at once: an interrupt waits for one call. */
enum { PIECE = 1 << 17 };
/* The arrays that a call has. */
enum { FEWEST = 3, MOST = 4 };

typedef struct {
    void *at;
    uint32_t kind;
} Handle;

typedef struct {
    int64_t first, last, change;
    int32_t before, after;
    uint32_t count;
} LocalTime;

typedef int32_t Change(Handle *, int64_t, int64_t *);
typedef int32_t Instants(Handle *, int64_t, LocalTime *);
typedef int32_t Meant(Handle *, uint32_t, const void *, size_t, void *, size_t, void *, size_t);
typedef int32_t Three(Handle *, const void *, size_t, void *, size_t, void *, size_t);
typedef int32_t Four(Handle *, const void *, size_t, const void *, size_t, void *, size_t, void *, size_t);

/* A call of the library, and a handle of its own. */
typedef struct {
    void *address;
    Handle handle;
} Call;

static PyObject *at_name, *kind_name;

/* Reads the address of a call, and the object that owns a handle. Returns 0, or -1 with an error. */
static int read_call(PyObject *address, PyObject *owned, Call *call) {
    PyObject *at = PyObject_GetAttr(owned, at_name), *kind = at ? PyObject_GetAttr(owned, kind_name) : NULL;
    if (kind) {
        call->address = PyLong_AsVoidPtr(address);
        call->handle.at = PyLong_AsVoidPtr(at);
        call->handle.kind = (uint32_t)PyLong_AsUnsignedLong(kind);
    }
    Py_XDECREF(at);
    Py_XDECREF(kind);
    return PyErr_Occurred() ? -1 : 0;
}

/* Returns 0, or -1 with an error, for a status of a call. */
static int look(int32_t status) {
    if (status == NO_MEMORY)
        PyErr_NoMemory();
    else if (status == NO_HANDLE || status == LENGTHS)
        PyErr_Format(PyExc_RuntimeError, "libpzic answers %d", (int)status);
    return PyErr_Occurred() ? -1 : 0;
}

/* Reads the words of a call and a number. Returns 0, or -1 with an error. */
static int read_number(PyObject *const *words, Py_ssize_t count, Call *call, long long *number) {
    if (count < 3) {
        PyErr_SetString(PyExc_TypeError, "an address, a handle and a number are wanted");
        return -1;
    }
    *number = PyLong_AsLongLong(words[count - 1]);
    return PyErr_Occurred() ? -1 : read_call(words[0], words[1], call);
}

static PyObject *fast_change(PyObject *module, PyObject *const *words, Py_ssize_t count) {
    Call call;
    long long instant;
    int64_t change;
    (void)module;
    if (read_number(words, count, &call, &instant) < 0)
        return NULL;
    int32_t status = ((Change *)call.address)(&call.handle, instant, &change);
    if (look(status) < 0)
        return NULL;
    if (status != OK)
        Py_RETURN_NONE;
    return PyLong_FromLongLong(change);
}

static PyObject *fast_local_time(PyObject *module, PyObject *const *words, Py_ssize_t count) {
    Call call;
    long long local;
    LocalTime found;
    (void)module;
    if (read_number(words, count, &call, &local) < 0)
        return NULL;
    int32_t status = ((Instants *)call.address)(&call.handle, local, &found);
    if (look(status) < 0)
        return NULL;
    if (status == OUT_OF_RANGE)
        Py_RETURN_NONE;
    return Py_BuildValue("(ILLLii)", (unsigned)found.count, (long long)found.first, (long long)found.last,
                         (long long)found.change, (int)found.before, (int)found.after);
}

static PyObject *fast_meant(PyObject *module, PyObject *const *words, Py_ssize_t count) {
    Call call;
    long long number;
    (void)module;
    if (count != 4) {
        PyErr_SetString(PyExc_TypeError, "meant() takes 4 arguments");
        return NULL;
    }
    unsigned long choice = PyLong_AsUnsignedLong(words[2]);
    if (read_number(words, count, &call, &number) < 0)
        return NULL;
    int64_t local = number, instant = 0;
    uint8_t told = 0;
    if (look(((Meant *)call.address)(&call.handle, (uint32_t)choice, &local, 1, &instant, 1, &told, 1)) < 0)
        return NULL;
    return Py_BuildValue("(Li)", (long long)instant, (int)told);
}

/* Asks for some items from one on, of arrays that have items of these sizes. Returns the status. */
static int32_t ask_piece(Call *call, long long choice, char *const *at, int arrays, size_t n) {
    if (choice >= 0)
        return ((Meant *)call->address)(&call->handle, (uint32_t)choice, at[0], n, at[1], n, at[2], n);
    if (arrays == FEWEST)
        return ((Three *)call->address)(&call->handle, at[0], n, at[1], n, at[2], n);
    return ((Four *)call->address)(&call->handle, at[0], n, at[1], n, at[2], n, at[3], n);
}

/* Has a call read and write arrays in pieces. Returns 0, or -1 with an error. */
static int ask_pieces(Call *call, long long choice, const Py_buffer *buffers, int arrays, size_t count) {
    for (size_t start = 0; start < count; start += PIECE) {
        size_t n = count - start < PIECE ? count - start : PIECE;
        char *at[MOST];
        int32_t status;
        for (int i = 0; i < arrays; i++)
            at[i] = (char *)buffers[i].buf + start * ((size_t)buffers[i].len / count);
        Py_BEGIN_ALLOW_THREADS
        status = ask_piece(call, choice, at, arrays, n);
        Py_END_ALLOW_THREADS
        if (look(status) < 0 || PyErr_CheckSignals() < 0)
            return -1;
    }
    return 0;
}

static PyObject *fast_ask(PyObject *module, PyObject *const *words, Py_ssize_t number) {
    Call call;
    Py_buffer buffers[MOST];
    int arrays = (int)number - 4, held = 0, failed = 1;
    (void)module;
    if (arrays != FEWEST && arrays != MOST) {
        PyErr_SetString(PyExc_TypeError, "ask() takes 7 or 8 arguments");
        return NULL;
    }
    long long choice = PyLong_AsLongLong(words[2]), count = PyLong_AsLongLong(words[3]);
    if (PyErr_Occurred() || read_call(words[0], words[1], &call) < 0)
        return NULL;
    while (held < arrays && PyObject_GetBuffer(words[4 + held], &buffers[held], PyBUF_SIMPLE) == 0)
        held++;
    if (held == arrays)
        failed = ask_pieces(&call, choice, buffers, arrays, (size_t)count);
    while (held > 0)
        PyBuffer_Release(&buffers[--held]);
    if (failed)
        return NULL;
    Py_RETURN_NONE;
}

#include "_fast_rows.h"

#define BY_PLACE(call) (PyCFunction)(void (*)(void))(call), METH_FASTCALL

static PyMethodDef module_functions[] = {
    {"change", BY_PLACE(fast_change), PyDoc_STR("Return the change that a call tells, or None.")},
    {"local_time", BY_PLACE(fast_local_time), PyDoc_STR("Return what a call tells of a local time, or None.")},
    {"meant", BY_PLACE(fast_meant), PyDoc_STR("Return the instant of a local time, and its status.")},
    {"ask", BY_PLACE(fast_ask), PyDoc_STR("Have a call read and write arrays.")},
    {"numbers", BY_PLACE(fast_numbers), PyDoc_STR("Write the number of each name.")},
    {"rows", BY_PLACE(fast_rows), PyDoc_STR("Write local time of rows.")},
    {NULL, NULL, 0, NULL},
};

/* ------------------------------------------------------------------ the module */

/* Adds a class to the module. Returns 0, or -1 with an error. */
static int add_class(PyObject *module, const char *name, PyType_Spec *spec, PyTypeObject *base) {
    PyObject *bases = PyTuple_Pack(1, (PyObject *)base);
    PyObject *made = bases ? PyType_FromSpecWithBases(spec, bases) : NULL;
    Py_XDECREF(bases);
    int status = made ? PyObject_SetAttrString(module, name, made) : -1;
    Py_XDECREF(made);
    return status;
}

static int make_module(PyObject *module) {
    PyDateTime_IMPORT;
    if (!PyDateTimeAPI || (datetime_type && datetime_type != PyDateTimeAPI->DateTimeType)) {
        PyErr_SetString(PyExc_ImportError, "pzic._fast: datetime isn't the one in C");
        return -1;
    }
    datetime_type = PyDateTimeAPI->DateTimeType;
    at_name = at_name ? at_name : PyUnicode_InternFromString("_at");
    kind_name = kind_name ? kind_name : PyUnicode_InternFromString("_kind");
    if (!at_name || !kind_name)
        return -1;
    if (add_class(module, "Years", &years_spec, PyDateTimeAPI->TZInfoType) < 0)
        return -1;
    return add_class(module, "Spans", &spans_spec, &PyBaseObject_Type);
}

static PyModuleDef_Slot module_slots[] = {
    {Py_mod_exec, make_module},
    {0, NULL},
};

static struct PyModuleDef module = {
    PyModuleDef_HEAD_INIT,
    .m_name = "pzic._fast",
    .m_doc = "The classes of _cache.py and the functions of _calls.py in C.",
    .m_methods = module_functions,
    .m_slots = module_slots,
};

PyMODINIT_FUNC PyInit__fast(void) {
    return PyModuleDef_Init(&module);
}
