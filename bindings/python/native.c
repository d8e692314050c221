/* The calls of the library for CPython 3.10 and later, with its stable ABI: quick functions, each in
 * front of a public function in Python, which handles unusual arguments; and those functions of
 * `_library.py`, which uses ctypes, that search and rewrite texts, and of `_rows.py`, for columns,
 * under the same names. Texts are str, choices are the codes of chinese_number.h, and places count
 * characters. A lone surrogate is passed as a question mark, which is not a numeral either. */
#define PY_SSIZE_T_CLEAN
#define Py_LIMITED_API 0x030A0000
#include <Python.h>
#include <stddef.h>
#include <string.h>
#include <structmember.h>
#include "chinese_number.h"

enum {
    SHORT = 256,    /* characters; a text of at most this many is read from the stack, without allocating */
    LONG = 1 << 16, /* bytes; see let_go */
    PIECE = 8192,   /* characters; see utf8 */
    AT_ONCE = 256,  /* numbers of a text that are found before the first one is returned */
    CHOICES = 5,    /* a quick function has at most this many */
    REFUSALS = 64,  /* of a quick function that are kept */
    DOUBT = 16      /* the code of a doubt is multiplied by this, and added to the flags */
};

/* The quick functions, by the names of the functions in Python. */
#define QUICK(DO)                                                                               \
    DO(to_number) DO(to_chinese) DO(amount_to_chinese) DO(signed_amount_to_chinese)             \
    DO(chinese_to_amount) DO(chinese_to_signed_amount) DO(chinese_to_amount_as_typed)           \
    DO(chinese_to_signed_amount_as_typed) DO(yuan_to_fen) DO(date_to_chinese)                   \
    DO(chinese_to_date) DO(to_quantity) DO(quantity_to_chinese) DO(quantity_to_figures)
#define PLACE_OF(name) AT_##name,
enum { QUICK(PLACE_OF) COUNT };

/* A keyword, the codes of its words, which are a dict, the code of its default, and the last word
 * of a call, which the choice owns, with its code. */
typedef struct choice {
    PyObject *keyword, *codes, *last;
    uint32_t code, last_code;
} choice;

/* The codes of a call's arguments, and, unless the status is CN_DONE, why there is no answer. */
typedef struct outcome {
    uint32_t status, codes[CHOICES];
    Py_ssize_t place;
} outcome;

/* An error for an outcome, as a tuple: its class, its arguments, and a copy of its `__dict__`; and
 * whether a text was read. */
typedef struct refusal {
    outcome of;
    PyObject *kept;
    int has_text;
} refusal;

/* A quick function, the Python function, the keyword of the first argument, and what else the
 * quick function needs. The last keywords of a call were `names`, and `places` says which choice
 * each is, or CHOICES for the first argument. */
typedef struct quick {
    PyMethodDef method;
    PyObject *function, *first, *more, *names;
    Py_ssize_t choices_count, names_count;
    int places[CHOICES + 1];
    choice choices[CHOICES];
    refusal refusals[REFUSALS];
} quick;

/* `run` is the class of runs, and `text` the name of a field of errors. `held` is a dict that owns
 * the other objects in the fields of the quick functions. */
typedef struct state {
    PyObject *run, *held, *text;
    quick quick[COUNT];
} state;

/* Owns an object that a field points to, instead of the last one of this field. */
static int hold(state *own, const void *field, PyObject *it) {
    PyObject *key = PyLong_FromVoidPtr((void *)field);
    int failed = !key || PyDict_SetItem(own->held, key, it);
    Py_XDECREF(key);
    return !failed;
}

/* Finds the code of a word; returns 0 if it has none. */
static int code_of(PyObject *codes, PyObject *word, uint32_t *code) {
    int is_word = PyUnicode_Check(word) || PyBool_Check(word); /* 1 equals True, but is no word */
    PyObject *found = is_word ? PyDict_GetItemWithError(codes, word) : NULL;
    if (found)
        *code = (uint32_t)PyLong_AsUnsignedLong(found);
    return found != NULL;
}

/* Finds the code of a choice's word, which is often the last one again. */
static int choose(choice *of, PyObject *word, uint32_t *code) {
    PyObject *last = of->last;
    if (word == last) {
        *code = of->last_code;
        return 1;
    }
    if (!code_of(of->codes, word, code))
        return 0;
    Py_INCREF(word);
    last = of->last; /* to find a code may run Python, and so another call */
    of->last = word;
    of->last_code = *code;
    Py_XDECREF(last);
    return 1;
}

/* Finds the place of each keyword of a call; returns 0 if a keyword has none. The same call has the
 * same tuple of names each time, so the last tuple is kept. */
static int know_names(state *own, quick *of, PyObject *names) {
    of->names = NULL;
    of->names_count = PyTuple_Size(names);
    if (of->names_count > of->choices_count + 1)
        return 0;
    for (int i = 0; i < of->names_count; i++) {
        PyObject *name = PyTuple_GetItem(names, i);
        int at = 0;
        while (at < of->choices_count && of->choices[at].keyword != name)
            at++;
        if (at == of->choices_count && name != of->first)
            return 0;
        of->places[i] = at < of->choices_count ? at : CHOICES;
    }
    if (!hold(own, &of->names, names))
        return 0;
    of->names = names;
    return 1;
}

/* Finds the first argument of a call, and the codes of the others or of their defaults; returns
 * NULL if one is not known. */
static PyObject *arguments_of(state *own, quick *of, PyObject *const *values, Py_ssize_t count,
                              PyObject *names, uint32_t *codes) {
    PyObject *first = count == 1 ? values[0] : NULL;
    int places[CHOICES + 1]; /* a copy, since another call may change them; see choose */
    for (int i = 0; i < of->choices_count; i++)
        codes[i] = of->choices[i].code;
    if (!of->function || count > 1 || (names && names != of->names && !know_names(own, of, names)))
        return NULL;
    if (!names)
        return first;
    Py_ssize_t names_count = of->names_count;
    memcpy(places, of->places, sizeof places);
    for (Py_ssize_t i = 0; i < names_count; i++) {
        int at = places[i];
        PyObject *value = values[count + i];
        if (at == CHOICES ? first != NULL : !choose(&of->choices[at], value, &codes[at]))
            return NULL;
        first = at == CHOICES ? value : first;
    }
    return first;
}

/* Where the error for an outcome is kept, or that for another one. */
static refusal *refusal_at(quick *of, const outcome *it) {
    return &of->refusals[((size_t)it->place + 7 * it->status) % REFUSALS];
}

/* Keeps the error that the Python function has raised for this outcome, without its text. */
static void keep(state *own, quick *of, const outcome *it) {
    refusal *at = refusal_at(of, it);
    PyObject *class, *error, *trace, *kept = NULL;
    PyErr_Fetch(&class, &error, &trace);
    PyObject *status = error ? PyObject_GetAttrString(error, "status") : NULL;
    PyObject *code = status ? PyObject_GetAttrString(status, "value") : NULL;
    int is_so = code && PyLong_AsUnsignedLong(code) == it->status; /* not of another __index__ */
    PyObject *arguments = is_so ? PyObject_GetAttrString(error, "args") : NULL;
    PyObject *of_error = is_so ? PyObject_GetAttrString(error, "__dict__") : NULL;
    PyObject *fields = of_error ? PyDict_Copy(of_error) : NULL;
    int has_text = fields && PyDict_GetItemWithError(fields, own->text);
    if (arguments && fields && !(has_text && PyDict_SetItem(fields, own->text, Py_None)))
        kept = PyTuple_Pack(3, class, arguments, fields);
    at->of.status = CN_DONE;
    if (kept && hold(own, at, kept))
        *at = (refusal){*it, kept, has_text};
    Py_XDECREF(status);
    Py_XDECREF(code);
    Py_XDECREF(arguments);
    Py_XDECREF(of_error);
    Py_XDECREF(fields);
    Py_XDECREF(kept);
    PyErr_Restore(class, error, trace);
}

/* Raises an error like the one that is kept for this outcome; returns 0 if none is. The Python
 * function would take several times as long to make the same error. */
static int refuse(state *own, quick *of, PyObject *given, const outcome *it) {
    const refusal like = *refusal_at(of, it); /* a copy, since another call may replace it */
    if (memcmp(&like.of, it, sizeof *it) != 0)
        return 0;
    Py_INCREF(like.kept);
    PyTypeObject *class = (PyTypeObject *)PyTuple_GetItem(like.kept, 0);
    PyObject *arguments = PyTuple_GetItem(like.kept, 1), *error = NULL;
    PyObject *fields = PyDict_Copy(PyTuple_GetItem(like.kept, 2));
    if (fields && !(like.has_text && PyDict_SetItem(fields, own->text, given)))
        error = ((newfunc)PyType_GetSlot(class, Py_tp_new))(class, arguments, NULL);
    if (error && !PyObject_GenericSetDict(error, fields, NULL))
        PyErr_SetObject((PyObject *)class, error);
    Py_XDECREF(fields);
    Py_XDECREF(error);
    Py_DECREF(like.kept);
    return 1;
}

/* Calls the Python function that a quick function wraps. */
static PyObject *unusual(const quick *of, PyObject *const *values, Py_ssize_t count,
                         PyObject *names) {
    PyObject *words = names ? PyDict_New() : NULL, *places = PyTuple_New(count), *answer = NULL;
    PyObject *function = of->function;
    int failed = !places || (names && !words) || !function;
    Py_XINCREF(function);
    for (Py_ssize_t i = 0; !failed && i < count; i++) {
        Py_INCREF(values[i]);
        failed = PyTuple_SetItem(places, i, values[i]);
    }
    for (Py_ssize_t i = 0; !failed && names && i < PyTuple_Size(names); i++)
        failed = PyDict_SetItem(words, PyTuple_GetItem(names, i), values[count + i]);
    if (!failed)
        answer = PyObject_Call(function, places, words);
    else if (!PyErr_Occurred())
        PyErr_SetString(PyExc_RuntimeError, "the interpreter is shutting down");
    Py_XDECREF(function);
    Py_XDECREF(places);
    Py_XDECREF(words);
    return answer;
}

/* What a quick function does with its argument: returns the answer, or NULL if the argument is
 * unusual, or if the outcome says why there is no answer. */
typedef PyObject *doing(const quick *of, PyObject *given, outcome *it);

static PyObject *answered(PyObject *module, int at, doing *what, PyObject *const *values,
                          Py_ssize_t count, PyObject *names) {
    state *own = PyModule_GetState(module);
    quick *of = &own->quick[at];
    outcome it = {.status = CN_DONE};
    PyObject *given = arguments_of(own, of, values, count, names, it.codes);
    PyObject *answer = given ? what(of, given, &it) : NULL;
    if (answer)
        return answer;
    if (PyErr_Occurred()) {
        if (!PyErr_ExceptionMatches(PyExc_TypeError))
            return NULL;
        PyErr_Clear(); /* the Python function raises an error with a better text */
        it.status = CN_DONE;
    }
    if (it.status != CN_DONE && refuse(own, of, given, &it))
        return NULL;
    answer = unusual(of, values, count, names);
    if (!answer && it.status != CN_DONE)
        keep(own, of, &it);
    return answer;
}

/* Writes a text of at most SHORT characters as UTF-8, and returns how many bytes, or 0 if a
 * character has neither one byte nor three. Unlike PyUnicode_AsUTF8AndSize it leaves no copy in the
 * str. */
static size_t put_short(PyObject *text, Py_ssize_t length, uint8_t *room) {
    Py_UCS4 characters[SHORT];
    uint8_t *end = room;
    PyUnicode_AsUCS4(text, characters, SHORT, 0);
    for (Py_ssize_t i = 0; i < length; i++) {
        Py_UCS4 it = characters[i];
        if (it - 0x800 < 0xD000 || it - 0xE000 < 0x2000) {
            *end++ = (uint8_t)(0xE0 | it >> 12);
            *end++ = (uint8_t)(0x80 | (it >> 6 & 63));
            *end++ = (uint8_t)(0x80 | (it & 63));
        } else if (it < 0x80) {
            *end++ = (uint8_t)it;
        } else {
            return 0;
        }
    }
    return (size_t)(end - room);
}

/* Releases the GIL while a long text is read. A shorter text takes less than a tenth of the 5 ms
 * that Python lets a thread run anyway, and releasing could mean to wait as long. */
static PyThreadState *let_go(size_t length) {
    return length > LONG ? PyEval_SaveThread() : NULL;
}

static void take_back(PyThreadState *thread) {
    if (thread)
        PyEval_RestoreThread(thread);
}

static PyObject *encoded(PyObject *string) {
    return string ? PyUnicode_AsEncodedString(string, "utf-8", "replace") : NULL;
}

/* The UTF-8 of a str, as bytes or a bytearray. A single character beyond ASCII makes encoding as
 * slow as many do. So a text that begins with ASCII is encoded in pieces, most of which are simply
 * copied. */
static PyObject *utf8(PyObject *module, PyObject *string) {
    Py_ssize_t length = PyUnicode_GetLength(string);
    PyObject *piece = PyUnicode_Substring(string, 0, PIECE), *bytes = encoded(piece);
    Py_XDECREF(piece);
    if (!bytes || length <= PIECE)
        return bytes;
    PyObject *done = PyBytes_Size(bytes) > PIECE ? encoded(string) : PyByteArray_FromObject(bytes);
    Py_DECREF(bytes);
    for (Py_ssize_t at = PIECE; done && PyByteArray_Check(done) && at < length; at += PIECE) {
        piece = PyUnicode_Substring(string, at, at + PIECE);
        bytes = encoded(piece);
        PyObject *longer = bytes ? PySequence_InPlaceConcat(done, bytes) : NULL;
        Py_XDECREF(piece);
        Py_XDECREF(bytes);
        Py_DECREF(done);
        done = longer;
    }
    return done;
}

/* A str in UTF-8: in the buffer `room`, or in the bytes object `held`. */
typedef struct text {
    const uint8_t *bytes;
    size_t length;
    PyObject *held;
    PyThreadState *thread;
    uint8_t room[3 * SHORT];
} text;

/* Takes a str for reading. If it is long, other threads run until give_back. */
static int take(PyObject *given, text *it) {
    Py_ssize_t length = PyUnicode_GetLength(given);
    char *bytes;
    it->held = NULL;
    it->thread = NULL;
    if (length < 0)
        return 0;
    it->bytes = it->room;
    it->length = length <= SHORT ? put_short(given, length, it->room) : 0;
    if (it->length)
        return 1;
    it->held = PyUnicode_AsEncodedString(given, "utf-8", "replace");
    if (!it->held || PyBytes_AsStringAndSize(it->held, &bytes, &length))
        return 0;
    it->length = (size_t)length;
    it->bytes = (const uint8_t *)bytes;
    it->thread = let_go(it->length);
    return 1;
}

static void give_back(text *it) {
    take_back(it->thread);
    Py_XDECREF(it->held);
}

/* Whether 64 bits hold a number with its sign. */
static int is_short(cn_number number, int is_signed) {
    cn_number same = cn_signed((int64_t)number.low);
    return number.high == same.high && (number.high == 0 || is_signed);
}

/* The int of a number. */
static PyObject *int_of(cn_number number, int is_signed) {
    if (is_short(number, is_signed))
        return PyLong_FromLongLong((long long)number.low);
    PyObject *bits = PyLong_FromLong(64), *low = PyLong_FromUnsignedLongLong(number.low);
    PyObject *high = is_signed ? PyLong_FromLongLong((long long)number.high)
                               : PyLong_FromUnsignedLongLong(number.high);
    PyObject *above = bits && high ? PyNumber_Lshift(high, bits) : NULL;
    PyObject *it = above && low ? PyNumber_Or(above, low) : NULL;
    Py_XDECREF(bits);
    Py_XDECREF(low);
    Py_XDECREF(high);
    Py_XDECREF(above);
    return it;
}

/* A whole number of any type except bool, as an int, or NULL. */
static PyObject *whole_of(PyObject *given) {
    if (!PyBool_Check(given))
        return PyNumber_Index(given);
    PyErr_SetNone(PyExc_TypeError);
    return NULL;
}

/* Takes a number that 64 bits with a sign do not hold. */
static int take_long(PyObject *whole, int is_signed, cn_number *it) {
    int overflow = 0;
    PyObject *bits = PyLong_FromLong(64), *above = bits ? PyNumber_Rshift(whole, bits) : NULL;
    long long high = above ? PyLong_AsLongLongAndOverflow(above, &overflow) : 0;
    int is_held = above && !overflow && (high >= 0 || is_signed);
    if (overflow > 0 && !is_signed) {
        high = (long long)PyLong_AsUnsignedLongLong(above);
        is_held = !PyErr_Occurred();
        PyErr_Clear();
    }
    *it = (cn_number){PyLong_AsUnsignedLongLongMask(whole), (uint64_t)high};
    Py_XDECREF(bits);
    Py_XDECREF(above);
    return is_held;
}

/* Takes a whole number; returns 0 if 128 bits with or without a sign do not hold it. */
static int take_number(PyObject *given, int is_signed, cn_number *it) {
    int overflow = 0;
    PyObject *whole = whole_of(given);
    long long value = whole ? PyLong_AsLongLongAndOverflow(whole, &overflow) : 0;
    int is_held = whole && (value >= 0 || is_signed);
    *it = cn_signed(value);
    if (overflow)
        is_held = take_long(whole, is_signed, it);
    Py_XDECREF(whole);
    return is_held;
}

/* Reads a text with a call, and returns from the function unless there is an answer. */
#define READ(call, given, why, it, ...)                       \
    text from;                                                \
    if (!take(given, &from))                                  \
        return NULL;                                          \
    why->status = call(from.bytes, from.length, __VA_ARGS__); \
    give_back(&from);                                         \
    why->place = (Py_ssize_t)it.char_index;                   \
    if (why->status != CN_DONE)                               \
        return NULL;

static PyObject *to_number(const quick *of, PyObject *given, outcome *why) {
    cn_reading it;
    READ(chinese_number_read_utf8, given, why, it, why->codes[0], why->codes[1], &it)
    return int_of(it.number, why->codes[0] >= CN_I8);
}

#define FEN_READER(name, call, answer)                                      \
    static PyObject *name(const quick *of, PyObject *given, outcome *why) { \
        answer it;                                                          \
        READ(call, given, why, it, &it)                                     \
        return PyLong_FromLongLong((long long)it.fen);                      \
    }

FEN_READER(chinese_to_amount, chinese_amount_read, cn_amount)
FEN_READER(chinese_to_signed_amount, chinese_signed_amount_read, cn_signed_amount)
FEN_READER(chinese_to_amount_as_typed, chinese_typed_amount_read, cn_amount)
FEN_READER(chinese_to_signed_amount_as_typed, chinese_typed_signed_amount_read, cn_signed_amount)
FEN_READER(yuan_to_fen, chinese_figures_read, cn_signed_amount)

/* `more` is the class of dates, and the names of the year, the month and the day. */
static PyObject *chinese_to_date(const quick *of, PyObject *given, outcome *why) {
    cn_date it;
    READ(chinese_date_read, given, why, it, &it)
    return PyObject_CallFunction(PyTuple_GetItem(of->more, 0), "III", it.year, it.month, it.day);
}

/* The words of a quantity: the halves of its numerator and of its denominator, and its form. */
static PyObject *words_of(const cn_quantity *it) {
    cn_number above = it->numerator, below = it->denominator;
    return Py_BuildValue("KKKKI", (unsigned long long)above.low, (unsigned long long)above.high,
                         (unsigned long long)below.low, (unsigned long long)below.high, it->form);
}

/* Sets a field of a quantity, whose class forbids it; returns whether that failed. */
static int set_field(PyObject *made, PyObject *name, PyObject *value) {
    int failed = !value || PyObject_GenericSetAttr(made, name, value);
    Py_XDECREF(value);
    return failed;
}

/* `more` is the names of the three fields of a quantity, the class of quantities, and the forms. */
static PyObject *to_quantity(const quick *of, PyObject *given, outcome *why) {
    cn_quantity it;
    READ(chinese_quantity_read, given, why, it, why->codes[0], &it)
    PyObject *more = of->more, *form = PyTuple_GetItem(more, 4 + (Py_ssize_t)it.form);
    PyObject *made = PyType_GenericAlloc((PyTypeObject *)PyTuple_GetItem(more, 3), 0);
    Py_XINCREF(form);
    if (made && !set_field(made, PyTuple_GetItem(more, 2), form) &&
        !set_field(made, PyTuple_GetItem(more, 0), int_of(it.numerator, 1)) &&
        !set_field(made, PyTuple_GetItem(more, 1), int_of(it.denominator, 0)))
        return made;
    Py_XDECREF(made);
    return NULL;
}

/* The str of a printed text, in which each character has three bytes, unless the outcome says why
 * there is none. Python's own decoder takes twice as long. */
static PyObject *string_of(const outcome *it, const uint8_t *text, size_t length) {
    wchar_t characters[CN_MOST_QUANTITY_BYTES / 3];
    Py_ssize_t count = 0;
    if (it->status != CN_DONE)
        return NULL;
    for (const uint8_t *at = text; at < text + length; at += 3)
        characters[count++] = (wchar_t)((at[0] & 15) << 12 | (at[1] & 63) << 6 | (at[2] & 63));
    return PyUnicode_FromWideChar(characters, count);
}

static PyObject *to_chinese(const quick *of, PyObject *given, outcome *it) {
    const uint32_t *codes = it->codes;
    cn_number number;
    uint8_t printed[CN_MOST_BYTES];
    size_t length;
    it->status = CN_NOT_HELD;
    if (take_number(given, codes[0] >= CN_I8, &number))
        it->status = chinese_number_print(number.low, number.high, codes[0], codes[1], codes[2],
                                          codes[3], printed, sizeof printed, &length);
    return string_of(it, printed, length);
}

/* Writes an amount of at least `least`. The codes after the first one are parts of the form. */
static PyObject *amount_of(PyObject *given, outcome *it, long long least) {
    const uint32_t *codes = it->codes, form = codes[1] | codes[2] | codes[3] | codes[4];
    uint8_t printed[CN_MOST_SIGNED_AMOUNT_BYTES];
    size_t length;
    int overflow;
    PyObject *whole = whole_of(given);
    if (!whole)
        return NULL;
    long long fen = PyLong_AsLongLongAndOverflow(whole, &overflow);
    Py_DECREF(whole);
    if (overflow || fen < least)
        it->status = overflow > 0 ? CN_TOO_LARGE : CN_TOO_SMALL;
    else if (fen < 0)
        it->status =
            chinese_signed_amount_print(fen, codes[0], form, printed, sizeof printed, &length);
    else
        it->status = chinese_amount_print((uint64_t)fen, codes[0], form, printed, sizeof printed,
                                          &length);
    return string_of(it, printed, length);
}

static PyObject *amount_to_chinese(const quick *of, PyObject *given, outcome *it) {
    return amount_of(given, it, 0);
}

static PyObject *signed_amount_to_chinese(const quick *of, PyObject *given, outcome *it) {
    return amount_of(given, it, INT64_MIN);
}

static uint32_t part_of(PyObject *day, PyObject *name) {
    PyObject *part = PyObject_GetAttr(day, name);
    uint32_t it = part ? (uint32_t)PyLong_AsUnsignedLong(part) : 0;
    Py_XDECREF(part);
    return it;
}

/* `more` is that of chinese_to_date. A date of another class is unusual. */
static PyObject *date_to_chinese(const quick *of, PyObject *given, outcome *it) {
    uint8_t printed[CN_MOST_DATE_BYTES];
    size_t length;
    if ((PyObject *)Py_TYPE(given) != PyTuple_GetItem(of->more, 0))
        return NULL;
    uint32_t year = part_of(given, PyTuple_GetItem(of->more, 1));
    uint32_t month = part_of(given, PyTuple_GetItem(of->more, 2));
    uint32_t day = part_of(given, PyTuple_GetItem(of->more, 3));
    it->status =
        chinese_date_print(year, month, day, it->codes[0], printed, sizeof printed, &length);
    return string_of(it, printed, length);
}

/* Takes a quantity. `more` is the names of its fields, and the codes of the forms. */
static int take_quantity(const quick *of, PyObject *given, cn_quantity *it) {
    PyObject *above = PyObject_GetAttr(given, PyTuple_GetItem(of->more, 0));
    PyObject *below = above ? PyObject_GetAttr(given, PyTuple_GetItem(of->more, 1)) : NULL;
    PyObject *form = below ? PyObject_GetAttr(given, PyTuple_GetItem(of->more, 2)) : NULL;
    *it = (cn_quantity){{0, 0}, {0, 0}, 0, 0, 0};
    int is_taken = form && take_number(above, 1, &it->numerator) &&
                   take_number(below, 0, &it->denominator) &&
                   code_of(PyTuple_GetItem(of->more, 3), form, &it->form);
    Py_XDECREF(above);
    Py_XDECREF(below);
    Py_XDECREF(form);
    return is_taken;
}

static PyObject *quantity_to_chinese(const quick *of, PyObject *given, outcome *it) {
    const uint32_t *codes = it->codes;
    cn_quantity quantity;
    uint8_t printed[CN_MOST_QUANTITY_BYTES];
    size_t length;
    if (!take_quantity(of, given, &quantity))
        return NULL;
    it->status = chinese_quantity_print(&quantity, codes[0], codes[1], codes[2], printed,
                                        sizeof printed, &length);
    return string_of(it, printed, length);
}

static PyObject *quantity_to_figures(const quick *of, PyObject *given, outcome *it) {
    cn_quantity quantity;
    uint8_t printed[CN_MOST_FIGURES_BYTES];
    size_t length;
    if (!take_quantity(of, given, &quantity))
        return NULL;
    it->status = chinese_quantity_figures(&quantity, printed, sizeof printed, &length);
    return PyUnicode_DecodeUTF8((char *)printed, (Py_ssize_t)length, NULL);
}

#define ENTRY(name)                                                                             \
    static PyObject *call_##name(PyObject *module, PyObject *const *values, Py_ssize_t count,   \
                                 PyObject *names) {                                             \
        return answered(module, AT_##name, name, values, count, names);                         \
    }
QUICK(ENTRY)

#define ROW(name) {#name, (void (*)(void))call_##name},
static const struct {
    const char *name;
    void (*call)(void);
} ROWS[] = {QUICK(ROW)};

/* Makes a quick function. The arguments are its name, the Python function, the keyword of its first
 * argument, a row for each choice, what else it needs, a text that begins with its signature, as
 * inspect reads it, and the name of its module. */
static PyObject *make_quick(PyObject *module, PyObject *given) {
    state *own = PyModule_GetState(module);
    PyObject *name, *function, *first, *choices, *more, *text, *where;
    int at = 0;
    if (!PyArg_ParseTuple(given, "UOUO!O!UO", &name, &function, &first, &PyTuple_Type, &choices,
                          &PyTuple_Type, &more, &text, &where))
        return NULL;
    while (at < COUNT && PyUnicode_CompareWithASCIIString(name, ROWS[at].name) != 0)
        at++;
    Py_ssize_t count = PyTuple_Size(choices);
    if (at == COUNT || count > CHOICES)
        return PyErr_Format(PyExc_ValueError, "there is no quick function %U", name);
    quick *of = &own->quick[at];
    for (Py_ssize_t i = 0; i < count; i++) {
        choice *it = &of->choices[i];
        Py_CLEAR(it->last);
        if (!PyArg_ParseTuple(PyTuple_GetItem(choices, i), "UO!I", &it->keyword, &PyDict_Type,
                              &it->codes, &it->code))
            return NULL;
    }
    if (!hold(own, of, given))
        return NULL;
    of->method = (PyMethodDef){ROWS[at].name, (PyCFunction)ROWS[at].call,
                               METH_FASTCALL | METH_KEYWORDS, PyUnicode_AsUTF8AndSize(text, NULL)};
    of->function = function;
    of->first = first;
    of->names = NULL;
    of->more = more;
    memset(of->refusals, 0, sizeof of->refusals);
    of->choices_count = count;
    return PyCFunction_NewEx(&of->method, module, where);
}

typedef uint32_t rewriting(const uint8_t *text, size_t text_length, uint32_t upper,
                           uint32_t greatest, uint32_t method, uint32_t options, uint8_t *room,
                           size_t room_length, size_t *length);

/* A text that a call has rewritten in figures. `data` is the text in UTF-8. */
static PyObject *rewritten(PyObject *given, rewriting *call) {
    PyObject *data, *room = NULL;
    char *bytes;
    Py_ssize_t given_length;
    unsigned upper, greatest, method, options;
    if (!PyArg_ParseTuple(given, "SIIII", &data, &upper, &greatest, &method, &options) ||
        PyBytes_AsStringAndSize(data, &bytes, &given_length))
        return NULL;
    size_t length = (size_t)given_length;
    uint32_t status = CN_NO_ROOM;
    while (status == CN_NO_ROOM) {
        size_t most = length;
        Py_XDECREF(room);
        room = PyBytes_FromStringAndSize(NULL, (Py_ssize_t)most);
        if (!room)
            return NULL;
        uint8_t *to = (uint8_t *)PyBytes_AsString(room);
        PyThreadState *thread = let_go((size_t)given_length);
        status = call((const uint8_t *)bytes, (size_t)given_length, upper, greatest, method,
                      options, to, most, &length);
        take_back(thread);
    }
    PyObject *text = PyUnicode_DecodeUTF8(PyBytes_AsString(room), (Py_ssize_t)length, NULL);
    Py_DECREF(room);
    return Py_BuildValue("IN", status, text);
}

static PyObject *quantities_to_figures(PyObject *module, PyObject *given) {
    return rewritten(given, chinese_quantities_to_figures);
}

static PyObject *text_to_figures(PyObject *module, PyObject *given) {
    return rewritten(given, chinese_text_to_figures);
}

/* How many characters UTF-8 bytes have: counts the bytes that do not continue one, eight at a time. */
static Py_ssize_t characters(const uint8_t *from, const uint8_t *to) {
    const uint64_t ones = UINT64_MAX / 255;
    uint64_t count = 0, eight;
    for (; to - from >= 8; from += 8) {
        memcpy(&eight, from, 8);
        count += ((~eight >> 7 | eight >> 6) & ones) * ones >> 56;
    }
    for (; from < to; from++)
        count += (*from & 0xC0) != 0x80;
    return (Py_ssize_t)count;
}

/* A run of a text. A run that a search has found holds the whole text, and creates its own text
 * only when it is read; a search that created each text at once would take half as long again. */
typedef struct run {
    PyObject_HEAD
    PyObject *string; /* its own text, or the whole text if `is_found` */
    Py_ssize_t start, end;
    uint32_t flags;
    int is_found;
} run;

static PyObject *text_of(PyObject *self, void *none) {
    run *it = (run *)self;
    if (it->is_found)
        return PyUnicode_Substring(it->string, it->start, it->end);
    Py_INCREF(it->string);
    return it->string;
}

static PyObject *has_flag(PyObject *self, void *flag) {
    return PyBool_FromLong((((run *)self)->flags & (uintptr_t)flag) != 0);
}

static PyObject *doubt_of(PyObject *self, void *none) {
    return PyLong_FromUnsignedLong(((run *)self)->flags / DOUBT);
}

/* Allocates a run of a class, without places and flags. */
static run *new_run(PyTypeObject *class, PyObject *string) {
    run *it = (run *)PyType_GenericAlloc(class, 0);
    if (it) {
        Py_INCREF(string);
        it->string = string;
    }
    return it;
}

/* Makes a run from its seven fields and the optional code of its doubt, for the class of runs and
 * its subclasses. A str of another class, which could hold the run, is copied. */
static PyObject *make_run(PyTypeObject *class, PyObject *values, PyObject *words) {
    static char *names[] = {"start",    "end",              "text",   "is_plain", "stands_alone",
                            "is_about", "is_one_character", "_doubt", NULL};
    Py_ssize_t start, end;
    PyObject *text;
    int plain, alone, about, one;
    unsigned doubt = CN_NO_DOUBT;
    if (!PyArg_ParseTupleAndKeywords(values, words, "nnUpppp|I:Run", names, &start, &end, &text,
                                     &plain, &alone, &about, &one, &doubt))
        return NULL;
    PyObject *exact = PyUnicode_FromObject(text);
    run *it = exact ? new_run(class, exact) : NULL;
    Py_XDECREF(exact);
    if (it) {
        it->start = start;
        it->end = end;
        it->flags = (plain ? CN_PLAIN_DIGITS : 0u) | (alone ? CN_STANDS_ALONE : 0u) |
                    (about ? CN_ABOUT : 0u) | (one ? CN_ONE_CHARACTER : 0u) | doubt * DOUBT;
    }
    return (PyObject *)it;
}

static void discard_run(PyObject *self) {
    PyTypeObject *class = Py_TYPE(self);
    freefunc discarded = (freefunc)PyType_GetSlot(class, Py_tp_free);
    Py_DECREF(((run *)self)->string);
    discarded(self);
    Py_DECREF(class);
}

#define FLAG(name, flag) {name, has_flag, NULL, NULL, (void *)flag}
static PyMemberDef PLACES[] = {
    {"start", T_PYSSIZET, offsetof(run, start), READONLY, NULL},
    {"end", T_PYSSIZET, offsetof(run, end), READONLY, NULL},
    {NULL, 0, 0, 0, NULL},
};
static PyGetSetDef OTHERS[] = {
    {"text", text_of, NULL, NULL, NULL},
    FLAG("is_plain", CN_PLAIN_DIGITS),
    FLAG("stands_alone", CN_STANDS_ALONE),
    FLAG("is_about", CN_ABOUT),
    FLAG("is_one_character", CN_ONE_CHARACTER),
    {"_doubt", doubt_of, NULL, NULL, NULL},
    {NULL, NULL, NULL, NULL, NULL},
};
static const char SIGNATURE[] =
    "Run(start, end, text, is_plain, stands_alone, is_about, is_one_character, _doubt=0)\n--\n\n";
static PyType_Slot RUN_SLOTS[] = {
    {Py_tp_doc, (void *)SIGNATURE}, {Py_tp_new, (void *)make_run},
    {Py_tp_members, PLACES},        {Py_tp_dealloc, (void *)discard_run},
    {Py_tp_getset, OTHERS},         {0, NULL},
};
static PyType_Spec RUN = {
    "chinese_number._native.Run", sizeof(run), 0, Py_TPFLAGS_DEFAULT | Py_TPFLAGS_BASETYPE,
    RUN_SLOTS,
};

/* A search in a text: its arguments, and the characters before the last result and before its end. */
typedef struct search {
    PyObject *string, *class;
    const uint8_t *bytes;
    Py_ssize_t length, searched, start, index;
    unsigned upper, greatest;
} search;

/* The bytes of a result of utf8, and how many they are; or NULL. */
static const uint8_t *bytes_of(PyObject *data, Py_ssize_t *length) {
    char *bytes = NULL;
    if (PyByteArray_Check(data)) {
        bytes = PyByteArray_AsString(data);
        *length = PyByteArray_Size(data);
    } else if (PyBytes_AsStringAndSize(data, &bytes, length)) {
        return NULL;
    }
    return (const uint8_t *)bytes;
}

/* Takes the arguments of a search: a text, the result of utf8 for it, how many bytes and how many
 * characters to skip, two codes, and the class of the runs. */
static int begin_search(PyObject *module, PyObject *given, search *it) {
    state *own = PyModule_GetState(module);
    PyObject *data;
    if (!PyArg_ParseTuple(given, "UOnnIIO!", &it->string, &data, &it->searched, &it->index,
                          &it->upper, &it->greatest, &PyType_Type, &it->class))
        return 0;
    it->bytes = bytes_of(data, &it->length);
    if (!it->bytes)
        return 0;
    if (it->searched < 0 || it->searched > it->length ||
        !PyType_IsSubtype((PyTypeObject *)it->class, (PyTypeObject *)own->run)) {
        PyErr_SetString(PyExc_ValueError, "expected a place in the bytes and a class of runs");
        return 0;
    }
    return 1;
}

/* Goes on to a result between two bytes. */
static void go_on(search *it, size_t start, size_t end) {
    const uint8_t *first = it->bytes + start, *last = it->bytes + end;
    it->start = it->index + characters(it->bytes + it->searched, first);
    it->index = it->start + characters(first, last);
    it->searched = (Py_ssize_t)end;
}

/* Makes a run for the result of a search. */
static PyObject *found_run(const search *of, uint32_t flags) {
    run *it = new_run((PyTypeObject *)of->class, of->string);
    if (it) {
        it->start = of->start;
        it->end = of->index;
        it->flags = flags;
        it->is_found = 1;
    }
    return (PyObject *)it;
}

/* Puts a result in the list of all, and returns whether that failed. */
static int put_found(PyObject *made, size_t at, PyObject *found) {
    return !found || PyList_SetItem(made, (Py_ssize_t)at, found);
}

/* The status, a list of results, and where the search stopped, in bytes and in characters; or NULL
 * if something failed. */
static PyObject *end_search(const search *it, uint32_t status, PyObject *made, size_t count,
                            int failed) {
    if (failed) {
        Py_XDECREF(made);
        return NULL;
    }
    return Py_BuildValue("INnn", status, made, count < AT_ONCE ? it->length : it->searched,
                         it->index);
}

typedef uint32_t finder(const uint8_t *text, size_t length, size_t from, uint32_t upper,
                        uint32_t greatest, cn_span *spans, size_t most, size_t *count);

/* Finds the next numbers or expressions of a text, as runs. */
static PyObject *find(PyObject *module, PyObject *given, finder *next) {
    search it;
    cn_span spans[AT_ONCE];
    size_t count;
    if (!begin_search(module, given, &it))
        return NULL;
    PyThreadState *thread = let_go((size_t)(it.length - it.searched));
    uint32_t status = next(it.bytes, (size_t)it.length, (size_t)it.searched, it.upper, it.greatest,
                           spans, AT_ONCE, &count);
    take_back(thread);
    PyObject *made = PyList_New((Py_ssize_t)count);
    int failed = !made;
    for (size_t i = 0; !failed && i < count; i++) {
        go_on(&it, spans[i].start, spans[i].end);
        failed = put_found(made, i, found_run(&it, spans[i].flags));
    }
    return end_search(&it, status, made, count, failed);
}

static PyObject *find_numbers(PyObject *module, PyObject *given) {
    return find(module, given, chinese_number_find_utf8);
}

static PyObject *find_quantities(PyObject *module, PyObject *given) {
    return find(module, given, chinese_quantity_find_utf8);
}

/* The words of the two quantities of a range. One that is refused has zeros. */
static PyObject *ends_of(const uint8_t *bytes, const cn_phrase *of) {
    const uint8_t *link = bytes + of->start + of->split, *end = bytes + of->end, *second = link;
    cn_quantity low, high;
    do
        second++;
    while (second < end && (*second & 0xC0) == 0x80);
    chinese_range_read(bytes + of->start, of->split, second, (size_t)(end - second), &low, &high);
    return Py_BuildValue("NN", words_of(&low), words_of(&high));
}

/* The place, the text, the codes and the numbers of a phrase. */
static PyObject *found_phrase(const search *it, const cn_phrase *of) {
    PyObject *numbers = of->kind == CN_PHRASE_KIND_RANGE
                            ? ends_of(it->bytes, of)
                            : Py_BuildValue("IIII", of->first, of->second, of->third, of->fourth);
    return Py_BuildValue("nnNIIN", it->start, it->index,
                         PyUnicode_Substring(it->string, it->start, it->index), of->kind, of->state,
                         numbers);
}

/* Finds the next phrases of a text, and its expressions that are in none, as runs. */
static PyObject *find_phrases(PyObject *module, PyObject *given) {
    search it;
    cn_phrase phrases[AT_ONCE];
    size_t count;
    if (!begin_search(module, given, &it))
        return NULL;
    PyThreadState *thread = let_go((size_t)(it.length - it.searched));
    uint32_t status = chinese_phrase_find_utf8(it.bytes, (size_t)it.length, (size_t)it.searched,
                                               it.upper, it.greatest, phrases, AT_ONCE, &count);
    take_back(thread);
    PyObject *made = PyList_New((Py_ssize_t)count);
    int failed = !made;
    for (size_t i = 0; !failed && i < count; i++) {
        const cn_phrase *of = &phrases[i];
        go_on(&it, of->start, of->end);
        int is_run = of->kind == CN_PHRASE_KIND_EXPRESSION;
        failed = put_found(made, i, is_run ? found_run(&it, of->flags) : found_phrase(&it, of));
    }
    return end_search(&it, status, made, count, failed);
}

/* ---- Columns: some rows at a time, in arrays that are bytes objects ----
 *
 * The values of the rows are an array of uint64_t, cn_number, int64_t or cn_day, and their texts
 * are as Arrow's large strings. The statuses are an array of uint32_t. What takes rows makes the
 * first statuses, of which those that are not CN_DONE are final. */

/* What the rows of a column are. */
enum { NUMBERS, WIDE_NUMBERS, AMOUNTS, DATES };

enum {
    USUAL = 48,     /* bytes of a text, for which there is room at first */
    BLOCK = 4096,   /* characters; see put_strings */
    EPOCH = 719468, /* days from 1 March of year 0 to 1 January 1970 */
    ERA = 146097    /* days of 400 years */
};

/* The array in a bytes object, and how many items of a size it has. */
#define ARRAY(type, object) ((type *)(void *)PyBytes_AsString(object))
#define ITEMS(object, size) (PyBytes_Size(object) / (Py_ssize_t)(size))

static PyObject *new_array(Py_ssize_t items, size_t size) {
    if (items > PY_SSIZE_T_MAX / 32)
        return PyErr_NoMemory();
    return PyBytes_FromStringAndSize(NULL, items * (Py_ssize_t)size);
}

static size_t size_of(unsigned what) {
    static const size_t SIZES[] = {sizeof(uint64_t), sizeof(cn_number), sizeof(int64_t),
                                   sizeof(cn_day)};
    return SIZES[what];
}

/* Whether an array has an item of a size for each status. */
static int has_rows(PyObject *array, size_t size, PyObject *statuses, Py_ssize_t more) {
    if (ITEMS(array, size) == ITEMS(statuses, 4) + more)
        return 1;
    PyErr_SetString(PyExc_ValueError, "expected as many rows as statuses");
    return 0;
}

/* The values of the rows that are taken, with their statuses. Numbers have 64 bits until one needs
 * more. `above` and `below` are the statuses of what is too large or too small for the rows. */
typedef struct taking {
    PyObject *values, *statuses;
    void *at;
    uint32_t *status;
    Py_ssize_t rows;
    int is_signed, may_be_wide, is_wide;
    unsigned above, below;
} taking;

static int begin_taking(taking *it, Py_ssize_t rows, size_t size) {
    it->rows = rows;
    it->is_wide = 0;
    it->statuses = new_array(rows, 4);
    it->values = it->statuses ? new_array(rows, size) : NULL;
    if (!it->values)
        return 0;
    it->at = PyBytes_AsString(it->values);
    it->status = ARRAY(uint32_t, it->statuses);
    return 1;
}

/* What was taken: what the rows are, their values and their statuses; or NULL. */
static PyObject *end_taking(taking *it, unsigned what, int is_taken) {
    if (is_taken)
        return Py_BuildValue("INN", what, it->values, it->statuses);
    Py_XDECREF(it->values);
    Py_XDECREF(it->statuses);
    return NULL;
}

/* Widens the numbers that are already taken to 128 bits. */
static int widen(taking *it, Py_ssize_t taken) {
    PyObject *wide = new_array(it->rows, sizeof(cn_number));
    if (!wide)
        return 0;
    const uint64_t *from = it->at;
    cn_number *to = ARRAY(cn_number, wide);
    for (Py_ssize_t i = 0; i < taken; i++)
        to[i] = it->is_signed ? cn_signed((int64_t)from[i]) : cn_unsigned(from[i]);
    Py_DECREF(it->values);
    it->values = wide;
    it->at = to;
    it->is_wide = 1;
    return 1;
}

/* Whether the 64 bits of a row hold a number that was taken. Rows without a sign that may not have
 * 128 bits have 63. */
static int is_narrow(const taking *it, cn_number number) {
    if (it->is_signed)
        return is_short(number, 1);
    return number.high == 0 && (it->may_be_wide || number.low >> 63 == 0);
}

/* Puts a number, in two's complement of 128 bits if the rows are signed. */
static int put_number(taking *it, Py_ssize_t row, cn_number number, uint32_t status) {
    if (status == CN_DONE && !it->is_wide && !is_narrow(it, number)) {
        if (!it->may_be_wide)
            status = it->is_signed && number.high >> 63 ? it->below : it->above;
        else if (!widen(it, row))
            return 0;
    }
    number = status == CN_DONE ? number : cn_unsigned(0);
    it->status[row] = status;
    if (it->is_wide)
        ((cn_number *)it->at)[row] = number;
    else
        ((uint64_t *)it->at)[row] = number.low;
    return 1;
}

/* Whether a whole number is below zero. */
static int is_below_zero(PyObject *given) {
    int overflow = 0;
    PyObject *whole = whole_of(given);
    long long value = whole ? PyLong_AsLongLongAndOverflow(whole, &overflow) : 0;
    Py_XDECREF(whole);
    return overflow < 0 || (overflow == 0 && value < 0);
}

/* Takes a whole number of a list. */
static int take_item(taking *it, Py_ssize_t row, PyObject *given) {
    cn_number number = cn_unsigned(0);
    uint32_t status = given == Py_None ? CN_NONE : CN_DONE;
    if (status == CN_DONE && !take_number(given, it->is_signed, &number) && !PyErr_Occurred())
        status = is_below_zero(given) ? it->below : it->above;
    return !PyErr_Occurred() && put_number(it, row, number, status);
}

/* Takes the whole numbers of a list, and None. The other arguments are whether the rows are signed,
 * whether they may have 128 bits, and the statuses of numbers above and below them. */
static PyObject *numbers_of(PyObject *module, PyObject *given) {
    taking it = {0};
    PyObject *list;
    if (!PyArg_ParseTuple(given, "O!iiII", &PyList_Type, &list, &it.is_signed, &it.may_be_wide,
                          &it.above, &it.below))
        return NULL;
    int is_taken = begin_taking(&it, PyList_Size(list), 8);
    for (Py_ssize_t i = 0; is_taken && i < it.rows; i++) {
        PyObject *item = PyList_GetItem(list, i); /* an __index__ may change the list */
        Py_XINCREF(item);
        is_taken = item && take_item(&it, i, item);
        Py_XDECREF(item);
    }
    return end_taking(&it, it.is_wide ? WIDE_NUMBERS : NUMBERS, is_taken);
}

/* A number of an array, whose items have 1, 2, 4, 8 or 16 bytes, in 128 bits. */
static cn_number number_at(const char *array, Py_ssize_t row, int size, int is_signed) {
    const void *at = array + row * size;
    switch (size) {
    case 1:
        return is_signed ? cn_signed(*(const int8_t *)at) : cn_unsigned(*(const uint8_t *)at);
    case 2:
        return is_signed ? cn_signed(*(const int16_t *)at) : cn_unsigned(*(const uint16_t *)at);
    case 4:
        return is_signed ? cn_signed(*(const int32_t *)at) : cn_unsigned(*(const uint32_t *)at);
    case 8:
        return is_signed ? cn_signed(*(const int64_t *)at) : cn_unsigned(*(const uint64_t *)at);
    default:
        return *(const cn_number *)at;
    }
}

/* Whether bit `first` + row of a bitmap, or of none, says that a row is present. */
static int is_present(PyObject *bitmap, Py_ssize_t first, Py_ssize_t row) {
    if (bitmap == Py_None)
        return 1;
    Py_ssize_t bit = first + row;
    return PyBytes_AsString(bitmap)[bit / 8] >> bit % 8 & 1;
}

/* Whether a bitmap, or None, has bits for so many rows. */
static int has_bits(PyObject *bitmap, Py_ssize_t first, Py_ssize_t rows) {
    if (bitmap == Py_None || (PyBytes_Check(bitmap) && first >= 0 &&
                              (first + rows + 7) / 8 <= PyBytes_Size(bitmap)))
        return 1;
    PyErr_SetString(PyExc_ValueError, "expected a bit for each row");
    return 0;
}

/* Takes the whole numbers of an array. The arguments are the array, the size of an item in bytes,
 * whether the items are signed, a bitmap or None, the bit of the first row, and those of numbers_of
 * after the list. */
static PyObject *numbers_in(PyObject *module, PyObject *given) {
    taking it = {0};
    PyObject *array, *bitmap;
    int size, is_signed;
    Py_ssize_t first;
    if (!PyArg_ParseTuple(given, "SiiOniiII", &array, &size, &is_signed, &bitmap, &first,
                          &it.is_signed, &it.may_be_wide, &it.above, &it.below))
        return NULL;
    const char *items = PyBytes_AsString(array);
    int is_taken = has_bits(bitmap, first, ITEMS(array, size)) &&
                   begin_taking(&it, ITEMS(array, size), 8);
    for (Py_ssize_t i = 0; is_taken && i < it.rows; i++) {
        cn_number number = number_at(items, i, size, is_signed);
        uint32_t status = number.high >> 63 && !it.is_signed ? it.below : CN_DONE;
        is_taken = put_number(&it, i, number, is_present(bitmap, first, i) ? status : CN_NONE);
    }
    return end_taking(&it, it.is_wide ? WIDE_NUMBERS : NUMBERS, is_taken);
}

/* A date by the days since 1 January 1970; of year 0 if it is before year 1 or after 9999. */
static cn_day day_of(int32_t days) {
    if (days < -719162 || days > 2932896)
        return (cn_day){0, 0, 0};
    uint32_t since = (uint32_t)(days + EPOCH), era = since / ERA, rest = since % ERA;
    uint32_t year = (rest - rest / 1460 + rest / 36524 - rest / 146096) / 365;
    uint32_t day = rest - (365 * year + year / 4 - year / 100), month = (5 * day + 2) / 153;
    uint32_t is_next = month >= 10;
    return (cn_day){400 * era + year + is_next, is_next ? month - 9 : month + 3,
                    day - (153 * month + 2) / 5 + 1};
}

/* The days from 1 January 1970 to a date. */
static int32_t days_to(const cn_day *it) {
    uint32_t year = it->month < 3 ? it->year - 1 : it->year, rest = year % 400;
    uint32_t month = it->month < 3 ? it->month + 9 : it->month - 3;
    uint32_t day = (153 * month + 2) / 5 + it->day - 1;
    uint32_t days = year / 400 * ERA + 365 * rest + rest / 4 - rest / 100 + day;
    return (int32_t)days - EPOCH;
}

/* Takes a date of a list, or raises a TypeError. The classes are of dates and of datetimes. */
static int take_day(PyObject *given, PyObject *classes, PyObject *const *names, cn_day *it) {
    PyTypeObject *class = (PyTypeObject *)PyTuple_GetItem(classes, 0);
    PyTypeObject *other = (PyTypeObject *)PyTuple_GetItem(classes, 1);
    if (Py_TYPE(given) != class &&
        (!PyType_IsSubtype(Py_TYPE(given), class) || PyType_IsSubtype(Py_TYPE(given), other))) {
        PyErr_SetNone(PyExc_TypeError);
        return 0;
    }
    *it = (cn_day){part_of(given, names[0]), part_of(given, names[1]), part_of(given, names[2])};
    return !PyErr_Occurred();
}

/* Takes the dates of a list, and None. The second argument is a tuple: the classes of dates and of
 * datetimes, and the names of the year, the month and the day. */
static PyObject *days_of(PyObject *module, PyObject *given) {
    taking it = {0};
    PyObject *list, *more, *names[3];
    if (!PyArg_ParseTuple(given, "O!O!", &PyList_Type, &list, &PyTuple_Type, &more))
        return NULL;
    for (int i = 0; i < 3; i++)
        names[i] = PyTuple_GetItem(more, 2 + i);
    int is_taken = begin_taking(&it, PyList_Size(list), sizeof(cn_day));
    for (Py_ssize_t i = 0; is_taken && i < it.rows; i++) {
        PyObject *item = PyList_GetItem(list, i);
        cn_day *day = (cn_day *)it.at + i;
        *day = (cn_day){0, 0, 0};
        Py_XINCREF(item);
        is_taken = item && (item == Py_None || take_day(item, more, names, day));
        it.status[i] = item == Py_None ? CN_NONE : CN_DONE;
        Py_XDECREF(item);
    }
    return end_taking(&it, DATES, is_taken);
}

/* Takes the dates of an array of days since 1 January 1970, in 32 bits. The other arguments are a
 * bitmap or None, and the bit of the first row. */
static PyObject *days_in(PyObject *module, PyObject *given) {
    taking it = {0};
    PyObject *array, *bitmap;
    Py_ssize_t first;
    if (!PyArg_ParseTuple(given, "SOn", &array, &bitmap, &first) ||
        !has_bits(bitmap, first, ITEMS(array, 4)))
        return NULL;
    int is_taken = begin_taking(&it, ITEMS(array, 4), sizeof(cn_day));
    for (Py_ssize_t i = 0; is_taken && i < it.rows; i++) {
        ((cn_day *)it.at)[i] = day_of(ARRAY(int32_t, array)[i]);
        it.status[i] = is_present(bitmap, first, i) ? CN_DONE : CN_NONE;
    }
    return end_taking(&it, DATES, is_taken);
}

/* Makes a bytearray longer, so that so many bytes fit after those that are used. */
static int make_room(PyObject *bytes, size_t used, size_t needed) {
    size_t size = (size_t)PyByteArray_Size(bytes);
    if (size - used >= needed)
        return 1;
    if (size > PY_SSIZE_T_MAX / 2 - needed) {
        PyErr_NoMemory();
        return 0;
    }
    return !PyByteArray_Resize(bytes, (Py_ssize_t)(2 * size + needed));
}

/* Puts a long str, or one with unusual characters. */
static int put_long(PyObject *given, PyObject *bytes, size_t *used) {
    char *from;
    Py_ssize_t length = 0;
    PyObject *data = encoded(given);
    int is_put = data && !PyBytes_AsStringAndSize(data, &from, &length) &&
                 make_room(bytes, *used, (size_t)length);
    if (is_put)
        memcpy(PyByteArray_AsString(bytes) + *used, from, (size_t)length);
    *used += (size_t)length;
    Py_XDECREF(data);
    return is_put;
}

/* Puts a str in UTF-8 after the bytes that are used. */
static int put_text(PyObject *given, PyObject *bytes, size_t *used) {
    Py_ssize_t length = PyUnicode_GetLength(given); /* -1 and a TypeError if it is no str */
    if (length < 0 || !make_room(bytes, *used, 3 * SHORT))
        return 0;
    uint8_t *end = (uint8_t *)PyByteArray_AsString(bytes) + *used;
    size_t put = length <= SHORT ? put_short(given, length, end) : 0;
    *used += put;
    return put || length == 0 || put_long(given, bytes, used);
}

/* A bytearray with the usual room for so many texts. */
static PyObject *new_room(Py_ssize_t texts) {
    if (texts > PY_SSIZE_T_MAX / USUAL)
        return PyErr_NoMemory();
    return PyByteArray_FromStringAndSize(NULL, texts * USUAL);
}

/* Makes a bytearray as long as it is used; NULL if that or the rest failed. */
static PyObject *shortened(PyObject *bytes, size_t used, int is_good) {
    if (bytes && (!is_good || PyByteArray_Resize(bytes, (Py_ssize_t)used)))
        Py_CLEAR(bytes);
    return bytes;
}

/* The texts, the offsets and the statuses of some rows, which it owns; or NULL. */
static PyObject *rows_of_texts(PyObject *texts, PyObject *offsets, PyObject *statuses) {
    if (texts && offsets && statuses)
        return Py_BuildValue("NNN", texts, offsets, statuses);
    Py_XDECREF(texts);
    Py_XDECREF(offsets);
    Py_XDECREF(statuses);
    return NULL;
}

/* Takes the texts of a list, and None. */
static PyObject *texts_of(PyObject *module, PyObject *list) {
    Py_ssize_t rows = PyList_Size(list);
    size_t used = 0;
    PyObject *offsets = rows < 0 ? NULL : new_array(rows + 1, 8);
    PyObject *statuses = offsets ? new_array(rows, 4) : NULL;
    PyObject *texts = statuses ? new_room(rows) : NULL;
    int is_taken = texts != NULL;
    for (Py_ssize_t i = 0; is_taken && i < rows; i++) {
        PyObject *item = PyList_GetItem(list, i);
        ARRAY(uint64_t, offsets)[i] = used;
        ARRAY(uint32_t, statuses)[i] = item == Py_None ? CN_NONE : CN_DONE;
        is_taken = item && (item == Py_None || put_text(item, texts, &used));
    }
    if (is_taken)
        ARRAY(uint64_t, offsets)[rows] = used;
    return rows_of_texts(shortened(texts, used, is_taken), offsets, statuses);
}

/* Takes the texts of an array. The arguments are the texts from the first one on, their offsets,
 * the size of an offset in bytes, a bitmap or None, and the bit of the first row. */
static PyObject *texts_in(PyObject *module, PyObject *given) {
    PyObject *texts, *array, *bitmap;
    int size;
    Py_ssize_t first;
    if (!PyArg_ParseTuple(given, "SSiOn", &texts, &array, &size, &bitmap, &first))
        return NULL;
    Py_ssize_t rows = ITEMS(array, size) - 1;
    if (!has_bits(bitmap, first, rows))
        return NULL;
    const char *from = PyBytes_AsString(array);
    PyObject *offsets = new_array(rows + 1, 8), *statuses = offsets ? new_array(rows, 4) : NULL;
    for (Py_ssize_t i = 0; statuses && i <= rows; i++)
        ARRAY(uint64_t, offsets)[i] =
            number_at(from, i, size, 0).low - number_at(from, 0, size, 0).low;
    for (Py_ssize_t i = 0; statuses && i < rows; i++)
        ARRAY(uint32_t, statuses)[i] = is_present(bitmap, first, i) ? CN_DONE : CN_NONE;
    Py_INCREF(texts);
    return rows_of_texts(texts, offsets, statuses);
}

/* Puts a bit for each row, 1 if its status is CN_DONE. */
static PyObject *bits_of(PyObject *module, PyObject *statuses) {
    Py_ssize_t rows = PyBytes_Check(statuses) ? ITEMS(statuses, 4) : 0;
    PyObject *bits = new_array((rows + 7) / 8, 1);
    if (!bits)
        return NULL;
    const uint32_t *of = rows ? ARRAY(uint32_t, statuses) : NULL;
    uint8_t *to = ARRAY(uint8_t, bits);
    memset(to, 0, (size_t)PyBytes_Size(bits));
    for (Py_ssize_t i = 0; i < rows; i++)
        if (of[i] == CN_DONE)
            to[i / 8] |= (uint8_t)(1 << i % 8);
    return bits;
}

/* The index of the first row that is refused: neither done nor missing; or -1. */
static PyObject *refused(PyObject *module, PyObject *statuses) {
    Py_ssize_t rows = PyBytes_Check(statuses) ? ITEMS(statuses, 4) : 0, at = 0;
    const uint32_t *of = rows ? ARRAY(uint32_t, statuses) : NULL;
    while (at < rows && (of[at] == CN_DONE || of[at] == CN_NONE))
        at++;
    return PyLong_FromLong(at < rows ? (long)at : -1);
}

/* A call for some rows of a column: the arguments that printing and reading share. */
typedef struct rows {
    unsigned what, codes[4];
    size_t count, bits_count, texts_length;
    const uint8_t *bits, *texts;
    uint64_t *offsets;
    uint32_t *statuses;
    void *values;
} rows;

/* Keeps the statuses that were final before a call. */
static void keep_statuses(PyObject *before, const rows *it) {
    const uint32_t *first = ARRAY(uint32_t, before);
    for (size_t i = 0; i < it->count; i++)
        if (first[i] != CN_DONE)
            it->statuses[i] = first[i];
}

/* Prints the rows from one on; `done` counts from there. */
static uint32_t print_from(const rows *it, size_t from, uint8_t *room, size_t room_length,
                           size_t *done) {
    const unsigned *codes = it->codes;
    size_t count = it->count - from, most = count + 1;
    uint64_t *offsets = it->offsets + from;
    uint32_t *statuses = it->statuses + from;
    switch (it->what) {
    case NUMBERS:
        return chinese_numbers_print_column((const uint64_t *)it->values + from, count, it->bits,
                                            it->bits_count, from, codes[0], codes[1], codes[2],
                                            codes[3], offsets, most, room, room_length, statuses,
                                            count, done);
    case WIDE_NUMBERS:
        return chinese_wide_numbers_print_column(
            (const cn_number *)it->values + from, count, it->bits, it->bits_count, from, codes[0],
            codes[1], codes[2], codes[3], offsets, most, room, room_length, statuses, count, done);
    case AMOUNTS:
        return chinese_amounts_print_column((const int64_t *)it->values + from, count, it->bits,
                                            it->bits_count, from, codes[0], codes[1], offsets,
                                            most, room, room_length, statuses, count, done);
    default:
        return chinese_dates_print_column((const cn_day *)it->values + from, count, it->bits,
                                          it->bits_count, from, codes[0], offsets, most, room,
                                          room_length, statuses, count, done);
    }
}

/* Prints all rows into a bytearray that grows, without the GIL, and returns it, or NULL. */
static PyObject *print_all(const rows *it) {
    PyObject *texts = new_room((Py_ssize_t)it->count);
    size_t from = 0, done;
    uint32_t status = texts ? CN_NO_ROOM : CN_DONE;
    it->offsets[0] = 0;
    while (status == CN_NO_ROOM) {
        uint8_t *room = (uint8_t *)PyByteArray_AsString(texts);
        size_t room_length = (size_t)PyByteArray_Size(texts);
        PyThreadState *thread = PyEval_SaveThread();
        status = print_from(it, from, room, room_length, &done);
        PyEval_RestoreThread(thread);
        from += done;
        if (status == CN_NO_ROOM &&
            !make_room(texts, it->offsets[from],
                       room_length - it->offsets[from] + CN_MOST_BYTES))
            return shortened(texts, 0, 0);
    }
    if (texts && from < it->count) {
        PyErr_SetString(PyExc_ValueError, "a code names nothing");
        return shortened(texts, 0, 0);
    }
    return texts ? shortened(texts, it->offsets[it->count], 1) : NULL;
}

/* Prints rows. The arguments are what they are, four codes, their values and their statuses. */
static PyObject *print_column(PyObject *module, PyObject *given) {
    rows it = {0};
    PyObject *values, *before;
    unsigned *codes = it.codes;
    if (!PyArg_ParseTuple(given, "I(IIII)SS", &it.what, &codes[0], &codes[1], &codes[2], &codes[3],
                          &values, &before) ||
        it.what > DATES || !has_rows(values, size_of(it.what), before, 0))
        return NULL;
    Py_ssize_t count = ITEMS(before, 4);
    PyObject *bits = bits_of(module, before), *offsets = bits ? new_array(count + 1, 8) : NULL;
    PyObject *statuses = offsets ? new_array(count, 4) : NULL, *texts = NULL;
    if (statuses) {
        it = (rows){it.what, {codes[0], codes[1], codes[2], codes[3]}, (size_t)count,
                    (size_t)PyBytes_Size(bits), 0, ARRAY(uint8_t, bits), NULL,
                    ARRAY(uint64_t, offsets), ARRAY(uint32_t, statuses), PyBytes_AsString(values)};
        texts = print_all(&it);
        keep_statuses(before, &it);
    }
    Py_XDECREF(bits);
    return rows_of_texts(texts, offsets, statuses);
}

/* Puts the rows from one on, as many as have at most BLOCK characters, in a list, and returns the
 * row after them, or -1. To make one str and take parts of it is quicker than to make each. */
static Py_ssize_t put_strings(PyObject *list, Py_ssize_t row, Py_ssize_t rows, const uint8_t *bytes,
                              const uint64_t *ends, const uint32_t *statuses) {
    wchar_t characters[BLOCK];
    Py_ssize_t stop = row, count = 0, start = 0;
    while (stop < rows && ends[stop + 1] - ends[row] <= 3 * BLOCK)
        stop++;
    for (const uint8_t *at = bytes + ends[row]; at < bytes + ends[stop]; at += 3)
        characters[count++] = (wchar_t)((at[0] & 15) << 12 | (at[1] & 63) << 6 | (at[2] & 63));
    PyObject *block = PyUnicode_FromWideChar(characters, count);
    for (; block && row < stop; row++) {
        Py_ssize_t end = start + (Py_ssize_t)(ends[row + 1] - ends[row]) / 3;
        PyObject *it = statuses[row] == CN_DONE ? PyUnicode_Substring(block, start, end)
                                                : Py_NewRef(Py_None);
        if (!it || PyList_SetItem(list, row, it))
            Py_CLEAR(block);
        start = end;
    }
    Py_XDECREF(block);
    return block ? stop : -1;
}

/* The str of the texts of rows, and None where there is none. */
static PyObject *strings(PyObject *module, PyObject *given) {
    PyObject *texts, *offsets, *statuses;
    Py_ssize_t length, row = 0;
    if (!PyArg_ParseTuple(given, "OSS", &texts, &offsets, &statuses) ||
        !has_rows(offsets, 8, statuses, 1))
        return NULL;
    const uint8_t *bytes = bytes_of(texts, &length);
    Py_ssize_t rows = ITEMS(statuses, 4);
    PyObject *list = bytes ? PyList_New(rows) : NULL;
    while (list && row < rows) {
        row = put_strings(list, row, rows, bytes, ARRAY(uint64_t, offsets),
                          ARRAY(uint32_t, statuses));
        if (row < 0)
            Py_CLEAR(list);
    }
    return list;
}

/* Reads one text as a number, or as an amount without a sign. */
static uint32_t read_one(const rows *it, size_t row, const uint8_t *text, size_t length) {
    const unsigned *codes = it->codes;
    if (it->what == AMOUNTS) {
        cn_amount amount;
        uint32_t status = codes[0] == CN_AMOUNT ? chinese_amount_read(text, length, &amount)
                                                : chinese_typed_amount_read(text, length, &amount);
        ((uint64_t *)it->values)[row] = amount.fen;
        return status;
    }
    cn_reading reading;
    uint32_t status = chinese_number_read_utf8(text, length, codes[0], codes[1], &reading);
    if (it->what == WIDE_NUMBERS)
        ((cn_number *)it->values)[row] = reading.number;
    else
        ((uint64_t *)it->values)[row] = reading.number.low;
    return status;
}

/* Reads texts one by one: amounts without a sign, for which the library has no column, and numbers
 * in str, since the library's column would test whether the texts are UTF-8. */
static uint32_t read_each(const rows *it) {
    for (size_t i = 0; i < it->count; i++) {
        uint64_t start = it->offsets[i], end = it->offsets[i + 1];
        int is_missing = (it->bits[i / 8] >> i % 8 & 1) == 0;
        int is_text = !is_missing && start <= end && end <= it->texts_length;
        if (!is_text)
            memset((char *)it->values + i * size_of(it->what), 0, size_of(it->what));
        it->statuses[i] = is_text ? read_one(it, i, it->texts + start, (size_t)(end - start))
                          : is_missing ? CN_NONE
                                       : CN_NO_ROOM;
    }
    return CN_DONE;
}

/* Reads rows. */
static uint32_t read_rows(const rows *it) {
    const unsigned *codes = it->codes;
    size_t count = it->count;
    if (it->what == AMOUNTS ? codes[0] == CN_AMOUNT || codes[0] == CN_TYPED_AMOUNT
                            : it->what != DATES && codes[3])
        return read_each(it);
    switch (it->what) {
    case NUMBERS:
        return chinese_numbers_read_column(it->texts, it->texts_length, it->offsets, count + 1,
                                           it->bits, it->bits_count, 0, codes[0], codes[1],
                                           it->values, count, it->statuses, count);
    case WIDE_NUMBERS:
        return chinese_wide_numbers_read_column(it->texts, it->texts_length, it->offsets, count + 1,
                                                it->bits, it->bits_count, 0, codes[0], codes[1],
                                                it->values, count, it->statuses, count);
    case AMOUNTS:
        return chinese_amounts_read_column(it->texts, it->texts_length, it->offsets, count + 1,
                                           it->bits, it->bits_count, 0, codes[0], it->values,
                                           count, it->statuses, count);
    default:
        return chinese_dates_read_column(it->texts, it->texts_length, it->offsets, count + 1,
                                         it->bits, it->bits_count, 0, it->values, count,
                                         it->statuses, count);
    }
}

/* Refuses the numbers of 128 bits that have more than the 38 digits of Arrow's decimals. */
static void refuse_long(const rows *it) {
    const cn_number least = {0x098A224000000000, 0x4B3B4CA85A86C47A}; /* 10^38 */
    cn_number *values = it->values;
    for (size_t i = 0; i < it->count; i++) {
        cn_number to = values[i];
        int is_negative = it->codes[0] >= CN_I8 && to.high >> 63;
        if (is_negative)
            to = (cn_number){0 - to.low, ~to.high + (to.low == 0)};
        if (to.high > least.high || (to.high == least.high && to.low >= least.low)) {
            it->statuses[i] = is_negative ? CN_TOO_SMALL : CN_TOO_LARGE;
            values[i] = cn_unsigned(0);
        }
    }
}

/* Reads rows, without the GIL. The arguments are what they are, two codes, whether the numbers
 * become decimals, whether the texts are of str, the texts, their offsets and their statuses.
 * Returns the status of the call, the values and the statuses. */
static PyObject *read_column(PyObject *module, PyObject *given) {
    rows it = {0};
    PyObject *texts, *offsets, *before;
    uint32_t status = CN_DONE;
    unsigned *codes = it.codes;
    Py_ssize_t length;
    if (!PyArg_ParseTuple(given, "I(IIII)OSS", &it.what, &codes[0], &codes[1], &codes[2], &codes[3],
                          &texts, &offsets, &before) ||
        it.what > DATES || !has_rows(offsets, 8, before, 1))
        return NULL;
    const uint8_t *bytes = bytes_of(texts, &length);
    if (!bytes)
        return NULL;
    Py_ssize_t count = ITEMS(before, 4);
    PyObject *bits = bits_of(module, before), *statuses = bits ? new_array(count, 4) : NULL;
    PyObject *values = statuses ? new_array(count, size_of(it.what)) : NULL;
    if (values) {
        it = (rows){it.what, {codes[0], codes[1], codes[2], codes[3]}, (size_t)count,
                    (size_t)PyBytes_Size(bits), (size_t)length, ARRAY(uint8_t, bits),
                    bytes, ARRAY(uint64_t, offsets), ARRAY(uint32_t, statuses),
                    PyBytes_AsString(values)};
        PyThreadState *thread = PyEval_SaveThread();
        status = read_rows(&it);
        if (status == CN_DONE && it.what == WIDE_NUMBERS && codes[2])
            refuse_long(&it);
        PyEval_RestoreThread(thread);
    }
    Py_XDECREF(bits);
    if (values)
        return Py_BuildValue("INN", status, values, statuses);
    Py_XDECREF(statuses);
    return NULL;
}

/* The int of a row. */
static PyObject *int_at(unsigned what, int is_signed, const void *values, Py_ssize_t row) {
    if (what == WIDE_NUMBERS)
        return int_of(((const cn_number *)values)[row], is_signed);
    uint64_t value = ((const uint64_t *)values)[row];
    return is_signed ? PyLong_FromLongLong((long long)value) : PyLong_FromUnsignedLongLong(value);
}

/* The ints of rows, and None where there is none. The first two arguments are what the rows are,
 * and whether they are signed. */
static PyObject *ints(PyObject *module, PyObject *given) {
    PyObject *values, *statuses;
    unsigned what;
    int is_signed;
    if (!PyArg_ParseTuple(given, "IiSS", &what, &is_signed, &values, &statuses) || what >= DATES ||
        !has_rows(values, size_of(what), statuses, 0))
        return NULL;
    Py_ssize_t rows = ITEMS(statuses, 4);
    const uint32_t *status = ARRAY(uint32_t, statuses);
    const void *from = PyBytes_AsString(values);
    PyObject *list = PyList_New(rows);
    for (Py_ssize_t i = 0; list && i < rows; i++) {
        PyObject *it = status[i] == CN_DONE ? int_at(what, is_signed, from, i) : Py_NewRef(Py_None);
        if (!it || PyList_SetItem(list, i, it))
            Py_CLEAR(list);
    }
    return list;
}

/* Makes a date of a class from its year and so on in the form in which pickle keeps them, which
 * takes a third of the time that ints take. */
static PyObject *date_of(PyObject *class, const cn_day *it) {
    const char kept[] = {(char)(it->year >> 8), (char)it->year, (char)it->month, (char)it->day};
    PyObject *bytes = PyBytes_FromStringAndSize(kept, 4);
    PyObject *arguments = bytes ? PyTuple_Pack(1, bytes) : NULL, *made = NULL;
    if (arguments)
        made = ((newfunc)PyType_GetSlot((PyTypeObject *)class, Py_tp_new))((PyTypeObject *)class,
                                                                            arguments, NULL);
    Py_XDECREF(bytes);
    Py_XDECREF(arguments);
    return made;
}

/* The dates of rows, of a class, and None where there is none. */
static PyObject *dates(PyObject *module, PyObject *given) {
    PyObject *class, *values, *statuses;
    if (!PyArg_ParseTuple(given, "O!SS", &PyType_Type, &class, &values, &statuses) ||
        !has_rows(values, sizeof(cn_day), statuses, 0))
        return NULL;
    Py_ssize_t rows = ITEMS(statuses, 4);
    PyObject *list = PyList_New(rows);
    for (Py_ssize_t i = 0; list && i < rows; i++) {
        int is_read = ARRAY(uint32_t, statuses)[i] == CN_DONE;
        PyObject *it = is_read ? date_of(class, &ARRAY(cn_day, values)[i]) : Py_NewRef(Py_None);
        if (!it || PyList_SetItem(list, i, it))
            Py_CLEAR(list);
    }
    return list;
}

/* The days since 1 January 1970 of the dates of rows, in 32 bits, and 0 where there is none. */
static PyObject *days_since(PyObject *module, PyObject *given) {
    PyObject *values, *statuses;
    if (!PyArg_ParseTuple(given, "SS", &values, &statuses) ||
        !has_rows(values, sizeof(cn_day), statuses, 0))
        return NULL;
    Py_ssize_t rows = ITEMS(statuses, 4);
    PyObject *days = new_array(rows, 4);
    for (Py_ssize_t i = 0; days && i < rows; i++)
        ARRAY(int32_t, days)[i] =
            ARRAY(uint32_t, statuses)[i] == CN_DONE ? days_to(&ARRAY(cn_day, values)[i]) : 0;
    return days;
}

/* The offsets after the first one, moved by so many bytes. */
static PyObject *shifted(PyObject *module, PyObject *given) {
    PyObject *offsets;
    unsigned long long by;
    if (!PyArg_ParseTuple(given, "SK", &offsets, &by))
        return NULL;
    Py_ssize_t rows = ITEMS(offsets, 8) - 1;
    PyObject *made = new_array(rows < 0 ? 0 : rows, 8);
    for (Py_ssize_t i = 0; made && i < rows; i++)
        ARRAY(uint64_t, made)[i] = ARRAY(uint64_t, offsets)[i + 1] + by;
    return made;
}

#define CALL(name, words) {#name, name, words, NULL}
static PyMethodDef METHODS[] = {
    CALL(make_quick, METH_VARARGS), CALL(utf8, METH_O), CALL(find_numbers, METH_VARARGS),
    CALL(find_quantities, METH_VARARGS), CALL(find_phrases, METH_VARARGS),
    CALL(quantities_to_figures, METH_VARARGS), CALL(text_to_figures, METH_VARARGS),
    CALL(numbers_of, METH_VARARGS), CALL(numbers_in, METH_VARARGS), CALL(days_of, METH_VARARGS),
    CALL(days_in, METH_VARARGS), CALL(texts_of, METH_O), CALL(texts_in, METH_VARARGS),
    CALL(print_column, METH_VARARGS), CALL(read_column, METH_VARARGS), CALL(bits_of, METH_O),
    CALL(refused, METH_O), CALL(strings, METH_VARARGS), CALL(ints, METH_VARARGS),
    CALL(dates, METH_VARARGS), CALL(days_since, METH_VARARGS), CALL(shifted, METH_VARARGS),
    {NULL, NULL, 0, NULL},
};

static int traverse(PyObject *module, visitproc visit, void *arg) {
    state *own = PyModule_GetState(module);
    for (int i = 0; i < COUNT * CHOICES; i++)
        Py_VISIT(own->quick[i / CHOICES].choices[i % CHOICES].last);
    Py_VISIT(own->held);
    Py_VISIT(own->run);
    return 0;
}

/* A quick function may still exist: it then has no function in Python and no signature. */
static int clear(PyObject *module) {
    state *own = PyModule_GetState(module);
    for (int i = 0; i < COUNT; i++) {
        own->quick[i].function = NULL;
        own->quick[i].method.ml_doc = NULL;
        for (int at = 0; at < CHOICES; at++)
            Py_CLEAR(own->quick[i].choices[at].last);
    }
    Py_CLEAR(own->held);
    Py_CLEAR(own->text);
    Py_CLEAR(own->run);
    return 0;
}

static void discard(void *module) {
    clear(module);
}

static int begin(PyObject *module) {
    state *own = PyModule_GetState(module);
    own->held = PyDict_New();
    own->text = PyUnicode_InternFromString("_text");
    own->run = PyType_FromModuleAndSpec(module, &RUN, NULL);
    return own->held && own->text && own->run ? PyModule_AddObjectRef(module, "Run", own->run) : -1;
}

static PyModuleDef_Slot SLOTS[] = {{Py_mod_exec, (void *)begin}, {0, NULL}};
static struct PyModuleDef MODULE = {
    PyModuleDef_HEAD_INIT,
    "chinese_number._native",
    NULL,
    sizeof(state),
    METHODS,
    SLOTS,
    traverse,
    clear,
    discard,
};

PyMODINIT_FUNC PyInit__native(void) {
    return PyModuleDef_Init(&MODULE);
}
