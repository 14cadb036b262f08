/* Rows with a zone for each: the functions `numbers` and `rows` of _calls.py. A part of _fast.c, which includes it. */

/* What may be among rows: one whose zone has no file, and one whose local time is too far from 1970. */
enum { LOST = 1, FAR = 2 };
/* The flag of a row whose zone has no file. */
enum { NO_ZONE = 4 };
/* The bytes of an abbreviation, and the texts that are kept at once. */
enum { LONGEST = 16, TEXTS_BITS = 6 };

/* Returns the number of a name, or -1 where it has none or with an error. */
static long long number_of(PyObject *known, PyObject *name) {
    Py_INCREF(name);
    PyObject *number = PyDict_GetItemWithError(known, name);
    long long found = number ? PyLong_AsLongLong(number) : -1;
    Py_DECREF(name);
    return found;
}

static PyObject *fast_numbers(PyObject *module, PyObject *const *words, Py_ssize_t count) {
    Py_buffer numbers;
    (void)module;
    if (count != 3 || !PyDict_Check(words[0]) || !PyList_Check(words[1])) {
        PyErr_SetString(PyExc_TypeError, "a dict, a list and an array are wanted");
        return NULL;
    }
    if (PyObject_GetBuffer(words[2], &numbers, PyBUF_WRITABLE) < 0)
        return NULL;
    Py_ssize_t length = numbers.len / (Py_ssize_t)sizeof(uint32_t), row = 0;
    /* To compare names may run code that changes the list. */
    for (; row < length && row < PyList_GET_SIZE(words[1]); row++) {
        long long number = number_of(words[0], PyList_GET_ITEM(words[1], row));
        if (number < 0)
            break;
        ((uint32_t *)numbers.buf)[row] = (uint32_t)number;
    }
    PyBuffer_Release(&numbers);
    return PyErr_Occurred() ? NULL : PyBool_FromLong(row == length);
}

/* A text, and the abbreviation that it is of, with NULs up to 16 bytes. */
typedef struct {
    char name[LONGEST];
    PyObject *text;
} Text;

/* Returns the text of an abbreviation, which the texts hold, or NULL with an error. */
static PyObject *text_of(Text *texts, const char *name) {
    uint64_t halves[2], odd = 0x9E3779B97F4A7C15u;
    memcpy(halves, name, sizeof halves);
    Text *kept = &texts[(halves[0] + halves[1] * odd) * odd >> (64 - TEXTS_BITS)];
    if (kept->text && memcmp(kept->name, name, LONGEST) == 0)
        return kept->text;
    const char *end = memchr(name, 0, LONGEST);
    PyObject *text = PyUnicode_DecodeASCII(name, end ? end - name : LONGEST, NULL);
    if (!text)
        return NULL;
    /* There is one object for all that are the same. */
    PyUnicode_InternInPlace(&text);
    memcpy(kept->name, name, LONGEST);
    Py_XSETREF(kept->text, text);
    return text;
}

/* Writes the texts of abbreviations in place of other objects. Returns 0, or -1 with an error. */
static int write_texts(PyObject **objects, const char *names, size_t count) {
    Text texts[1 << TEXTS_BITS];
    size_t row = 0;
    memset(texts, 0, sizeof texts);
    for (; row < count; row++) {
        PyObject *text = text_of(texts, names + row * LONGEST), *old = objects[row];
        if (!text)
            break;
        Py_INCREF(text);
        objects[row] = text;
        Py_XDECREF(old);
    }
    for (int i = 0; i < 1 << TEXTS_BITS; i++)
        Py_XDECREF(texts[i].text);
    return row == count ? 0 : -1;
}

/* The arrays of rows: the numbers of some, and of all rows times, offsets, flags, local seconds and texts. */
enum { NUMBERS, TIMES, OFFSETS, FLAGS, LOCAL, OBJECTS, ARRAYS };

/* Asks for the offsets, the flags and the abbreviations of rows. Returns the status. */
static int32_t ask_rows(Call *offsets_of, Call *names_of, char *const *at, char *names, size_t n) {
    int32_t status = ((Four *)offsets_of->address)(&offsets_of->handle, at[NUMBERS], n, at[TIMES], n, at[OFFSETS], n,
                                                   at[FLAGS], n);
    if (status != OK)
        return status;
    return ((Three *)names_of->address)(&names_of->handle, at[NUMBERS], n, at[TIMES], n, names, n);
}

/* Writes local seconds. Returns what is among the rows. */
static int add_offsets(char *const *at, size_t count, int64_t most) {
    const int64_t *times = (const int64_t *)at[TIMES];
    const int32_t *offsets = (const int32_t *)at[OFFSETS];
    const uint8_t *flags = (const uint8_t *)at[FLAGS];
    int64_t *local = (int64_t *)at[LOCAL];
    int seen = 0;
    for (size_t row = 0; row < count; row++) {
        int is_over = __builtin_add_overflow(times[row], (int64_t)offsets[row], &local[row]);
        if (is_over || local[row] > most || local[row] < -most)
            seen |= FAR;
        if (flags[row] & NO_ZONE)
            seen |= LOST;
    }
    return seen;
}

/* Converts as many rows as there are numbers. Returns what is among them, or -1 with an error. */
static int convert_rows(Call *offsets_of, Call *names_of, char *const *at, size_t count, int64_t most) {
    char *names = PyMem_Malloc(count * LONGEST + 1);
    int seen = 0;
    int32_t status;
    if (!names) {
        PyErr_NoMemory();
        return -1;
    }
    Py_BEGIN_ALLOW_THREADS
    status = ask_rows(offsets_of, names_of, at, names, count);
    if (status == OK)
        seen = add_offsets(at, count, most);
    Py_END_ALLOW_THREADS
    if (look(status) < 0 || write_texts((PyObject **)at[OBJECTS], names, count) < 0)
        seen = -1;
    PyMem_Free(names);
    return seen;
}

/* Finds the rows from one on in arrays. Returns 0, or -1 with an error where one hasn't as many. */
static int find_rows(const Py_buffer *buffers, size_t start, size_t count, char **at) {
    static const size_t sizes[ARRAYS] = {4, 8, 4, 1, 8, sizeof(PyObject *)};
    at[NUMBERS] = buffers[NUMBERS].buf;
    for (int i = TIMES; i < ARRAYS; i++) {
        if ((size_t)buffers[i].len / sizes[i] < start + count) {
            PyErr_SetString(PyExc_ValueError, "the arrays differ in length");
            return -1;
        }
        at[i] = (char *)buffers[i].buf + start * sizes[i];
    }
    return 0;
}

/* Gets the buffers of rows. Returns how many it got, fewer than wanted with an error. */
static int get_buffers(PyObject *const *words, Py_buffer *buffers) {
    int held = 0;
    for (; held < ARRAYS; held++) {
        int flags = held == OBJECTS ? PyBUF_WRITABLE | PyBUF_FORMAT : held < OFFSETS ? PyBUF_SIMPLE : PyBUF_WRITABLE;
        if (PyObject_GetBuffer(words[held], &buffers[held], flags) < 0)
            return held;
    }
    if (!buffers[OBJECTS].format || strcmp(buffers[OBJECTS].format, "O") != 0)
        PyErr_SetString(PyExc_TypeError, "an array of objects is wanted");
    return held;
}

static PyObject *fast_rows(PyObject *module, PyObject *const *words, Py_ssize_t number) {
    Call offsets_of, names_of;
    Py_buffer buffers[ARRAYS];
    char *at[ARRAYS];
    int seen = -1;
    (void)module;
    if (number != 5 + ARRAYS) {
        PyErr_SetString(PyExc_TypeError, "rows() takes 11 arguments");
        return NULL;
    }
    long long most = PyLong_AsLongLong(words[3]);
    size_t start = PyLong_AsSize_t(words[4]);
    if (PyErr_Occurred() || read_call(words[0], words[2], &offsets_of) < 0)
        return NULL;
    if (read_call(words[1], words[2], &names_of) < 0)
        return NULL;
    int held = get_buffers(words + 5, buffers);
    if (held == ARRAYS && !PyErr_Occurred()) {
        size_t count = (size_t)buffers[NUMBERS].len / sizeof(uint32_t);
        if (find_rows(buffers, start, count, at) == 0)
            seen = convert_rows(&offsets_of, &names_of, at, count, most);
    }
    while (held > 0)
        PyBuffer_Release(&buffers[--held]);
    return seen < 0 || PyErr_CheckSignals() < 0 ? NULL : PyLong_FromLong(seen);
}
