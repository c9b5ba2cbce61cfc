/*
 * The calls of libuca for Python, by its stable ABI. `load` loads the library when the package is imported, so that the environment can
 * name it.
 *
 * Any number of calls may read a collator of the library at once; only `close` and `__init__` change one. Every call here holds the
 * interpreter's lock from beginning to end, and none runs Python code while it is in the library, so no other call runs beside these two.
 */
#define PY_SSIZE_T_CLEAN
#include <Python.h>
#include <dlfcn.h>
#include <stdbool.h>
#include <stddef.h>
#include <stdint.h>
#include <uca.h>

#ifndef LIBRARY_FOLDER
#define LIBRARY_FOLDER ""
#endif

#define EACH_CALL(use)                                                                                                          \
    use(uca_version) use(uca_unicode_version) use(uca_open) use(uca_close) use(uca_clone) use(uca_check) use(uca_compare)       \
    use(uca_sort_key) use(uca_packed_key) use(uca_prefix_bounds) use(uca_packed_prefix_bounds) use(uca_fingerprint)             \
    use(uca_compare_levels) use(uca_matches)

#define member(name) __typeof__(name) *name;
static struct {
    EACH_CALL(member)
} library;

/* The callable, given to `load`, that makes the exception for a fault. */
static PyObject *error_of;

typedef struct {
    PyObject_HEAD
    uca_collator collator;
    uca_settings settings;
} Collator;

/* A text as bytes, which `held` keeps alive. */
typedef struct {
    PyObject *held;
    const uint8_t *bytes;
    size_t size;
} Text;

typedef __typeof__(uca_sort_key) *MakeKey;
typedef __typeof__(uca_prefix_bounds) *FindBounds;

/* Raises the exception for a status. `source` is the text, table or rules at fault. */
static void refuse(uint32_t status, const uca_fault *fault, size_t number, PyObject *source) {
    if (status == UCA_NO_MEMORY) {
        PyErr_NoMemory();
        return;
    }
    PyObject *error = PyObject_CallFunction(error_of, "IInKO", (unsigned)status, (unsigned)fault->kind, (Py_ssize_t)number,
                                            (unsigned long long)fault->at, source);
    if (error) {
        PyErr_SetObject((PyObject *)Py_TYPE(error), error);
        Py_DECREF(error);
    }
}

/* Takes a str, or UTF-8 as bytes. A lone surrogate becomes bytes that the library refuses. */
static bool take(PyObject *from, const char *what, size_t number, Text *text) {
    if (PyUnicode_Check(from)) {
        text->held = PyUnicode_AsUTF8String(from);
        if (!text->held && PyErr_ExceptionMatches(PyExc_UnicodeEncodeError)) {
            PyErr_Clear();
            text->held = PyUnicode_AsEncodedString(from, "utf-8", "surrogatepass");
        }
    } else if (PyBytes_Check(from)) {
        text->held = from;
        Py_INCREF(from);
    } else {
        text->held = NULL;
        if (number)
            PyErr_Format(PyExc_TypeError, "%s %zu has to be str, or UTF-8 as bytes, and not %R", what, number, Py_TYPE(from));
        else
            PyErr_Format(PyExc_TypeError, "%s to be str, or UTF-8 as bytes, and not %R", what, Py_TYPE(from));
    }
    if (!text->held)
        return false;
    text->bytes = (const uint8_t *)PyBytes_AsString(text->held);
    text->size = (size_t)PyBytes_Size(text->held);
    return true;
}

static PyObject *collator_new(PyTypeObject *type, PyObject *words, PyObject *named) {
    Collator *made = (Collator *)PyType_GenericNew(type, words, named);
    if (made)
        made->settings = (uca_settings)UCA_TERTIARY_SETTINGS;
    return (PyObject *)made;
}

static int collator_init(Collator *self, PyObject *words, PyObject *named) {
    static char *names[] = {"table", "rules", "strength", "variable", NULL};
    PyObject *table, *rules;
    unsigned strength, variable;
    if (!PyArg_ParseTupleAndKeywords(words, named, "OOII:Collator", names, &table, &rules, &strength, &variable))
        return -1;
    Text table_text, rules_text;
    if (!take(table, "a table has", 0, &table_text))
        return -1;
    if (!take(rules, "rules have", 0, &rules_text)) {
        Py_DECREF(table_text.held);
        return -1;
    }
    uca_fault fault;
    uint32_t status = library.uca_open(&self->collator, table_text.bytes, table_text.size, rules_text.bytes, rules_text.size, &fault);
    Py_DECREF(table_text.held);
    Py_DECREF(rules_text.held);
    if (status != UCA_OK) {
        refuse(status, &fault, 0, status == UCA_BAD_TABLE ? table : rules);
        return -1;
    }
    self->settings = (uca_settings)UCA_SETTINGS(strength, variable);
    return 0;
}

static void collator_dealloc(Collator *self) {
    PyTypeObject *type = Py_TYPE(self);
    library.uca_close(&self->collator);
    ((freefunc)PyType_GetSlot(type, Py_tp_free))(self);
    Py_DECREF(type);
}

static PyObject *collator_share(Collator *self, PyObject *words) {
    unsigned strength, variable;
    if (!PyArg_ParseTuple(words, "II:_share", &strength, &variable))
        return NULL;
    Collator *other = (Collator *)PyType_GenericNew(Py_TYPE(self), NULL, NULL);
    if (!other)
        return NULL;
    uca_fault fault = {0, 0, 0};
    uint32_t status = library.uca_clone(&self->collator, &other->collator);
    if (status != UCA_OK) {
        refuse(status, &fault, 0, Py_None);
        Py_DECREF(other);
        return NULL;
    }
    other->settings = (uca_settings)UCA_SETTINGS(strength, variable);
    return (PyObject *)other;
}

static PyObject *collator_close(Collator *self, PyObject *Py_UNUSED(none)) {
    library.uca_close(&self->collator);
    Py_RETURN_NONE;
}

static PyObject *collator_compare(Collator *self, PyObject *words) {
    PyObject *a, *b;
    Text a_text, b_text;
    if (!PyArg_ParseTuple(words, "OO:compare", &a, &b) || !take(a, "a text has", 0, &a_text))
        return NULL;
    if (!take(b, "a text has", 0, &b_text)) {
        Py_DECREF(a_text.held);
        return NULL;
    }
    int32_t order = 0;
    uca_fault fault;
    uint32_t status = library.uca_compare(&self->collator, &self->settings, a_text.bytes, a_text.size, b_text.bytes, b_text.size, &order,
                                          &fault);
    Py_DECREF(a_text.held);
    Py_DECREF(b_text.held);
    if (status != UCA_OK) {
        refuse(status, &fault, fault.text, fault.text == 2 ? b : a);
        return NULL;
    }
    return PyLong_FromLong(order);
}

/* The order of two texts and the level that decides it, in a pair. */
static PyObject *collator_explain(Collator *self, PyObject *words) {
    PyObject *a, *b;
    Text a_text, b_text;
    if (!PyArg_ParseTuple(words, "OO:explain", &a, &b) || !take(a, "a text has", 0, &a_text))
        return NULL;
    if (!take(b, "a text has", 0, &b_text)) {
        Py_DECREF(a_text.held);
        return NULL;
    }
    int32_t order = 0;
    uint32_t level = 0;
    uca_fault fault;
    uint32_t status = library.uca_compare_levels(&self->collator, &self->settings, a_text.bytes, a_text.size, b_text.bytes, b_text.size,
                                                 &order, &level, &fault);
    Py_DECREF(a_text.held);
    Py_DECREF(b_text.held);
    if (status != UCA_OK) {
        refuse(status, &fault, fault.text, fault.text == 2 ? b : a);
        return NULL;
    }
    return Py_BuildValue("iI", (int)order, (unsigned)level);
}

/* Arrays for the matches of a text, and their capacities. */
typedef struct {
    uca_match *matches;
    uint32_t *points;
    uca_element *elements;
    uca_matches_needed size;
} Matches;

static void free_room(Matches *found) {
    PyMem_Free(found->matches);
    PyMem_Free(found->points);
    PyMem_Free(found->elements);
}

static bool make_room(Matches *found, const uca_matches_needed *size) {
    free_room(found);
    found->size = *size;
    found->matches = PyMem_Malloc(sizeof *found->matches * size->matches + 1);
    found->points = PyMem_Malloc(sizeof *found->points * size->points + 1);
    found->elements = PyMem_Malloc(sizeof *found->elements * size->elements + 1);
    return found->matches && found->points && found->elements;
}

static bool has_room(const Matches *found, const uca_matches_needed *size) {
    return size->matches <= found->size.matches && size->points <= found->size.points && size->elements <= found->size.elements;
}

/* A match: its text, whether it is a key, and its elements, each as three weights and whether it is variable. */
static PyObject *match_of(const uca_match *match, const uint32_t *points, const uca_element *elements) {
    /* Code points as 32-bit numbers in the byte order of this machine are UTF-32. */
    const uint16_t one = 1;
    int order = *(const uint8_t *)&one ? -1 : 1;
    PyObject *text = PyUnicode_DecodeUTF32((const char *)points, 4 * (Py_ssize_t)match->points, NULL, &order);
    PyObject *listed = text ? PyTuple_New(match->elements) : NULL;
    for (uint32_t i = 0; listed && i < match->elements; i++) {
        PyObject *element = Py_BuildValue("HHHO", elements[i].primary, elements[i].secondary, elements[i].tertiary,
                                          elements[i].is_variable ? Py_True : Py_False);
        if (!element || PyTuple_SetItem(listed, i, element) < 0)
            Py_CLEAR(listed);
    }
    PyObject *made = listed ? Py_BuildValue("OOO", text, match->is_key ? Py_True : Py_False, listed) : NULL;
    Py_XDECREF(text);
    Py_XDECREF(listed);
    return made;
}

static PyObject *list_of(const Matches *found, const uca_matches_needed *size) {
    PyObject *list = PyList_New((Py_ssize_t)size->matches);
    const uint32_t *points = found->points;
    const uca_element *elements = found->elements;
    for (size_t i = 0; list && i < size->matches; i++) {
        PyObject *match = match_of(&found->matches[i], points, elements);
        points += found->matches[i].points;
        elements += found->matches[i].elements;
        if (!match || PyList_SetItem(list, (Py_ssize_t)i, match) < 0)
            Py_CLEAR(list);
    }
    return list;
}

/* The matches of a text. The first call, with no capacity, finds out how many there are. */
static PyObject *collator_matches(Collator *self, PyObject *from) {
    Text text;
    if (!take(from, "a text has", 0, &text))
        return NULL;
    Matches found = {NULL, NULL, NULL, {0, 0, 0}};
    uca_matches_needed needed = {0, 0, 0};
    uca_fault fault = {0, 0, 0};
    uint32_t status;
    PyObject *list = NULL;
    do {
        status = make_room(&found, &needed) ? library.uca_matches(&self->collator, text.bytes, text.size, found.matches, needed.matches,
                                                                   found.points, needed.points, found.elements, needed.elements, &needed,
                                                                   &fault)
                                            : UCA_NO_MEMORY;
    } while (status == UCA_OK && !has_room(&found, &needed));
    Py_DECREF(text.held);
    if (status == UCA_OK)
        list = list_of(&found, &needed);
    else
        refuse(status, &fault, fault.text, from);
    free_room(&found);
    return list;
}

/* The key of a text. `number` is its number in a list, or 0 if it is not in one. */
static PyObject *key_of(Collator *self, MakeKey make, PyObject *from, size_t number) {
    uint8_t near[16384];
    Text text;
    if (!take(from, number ? "text" : "a text has", number, &text))
        return NULL;
    size_t needed = 0;
    uca_fault fault;
    PyObject *key = NULL;
    uint32_t status = make(&self->collator, &self->settings, text.bytes, text.size, near, sizeof near, &needed, &fault);
    if (status == UCA_OK && needed <= sizeof near) {
        key = PyBytes_FromStringAndSize((const char *)near, (Py_ssize_t)needed);
    } else if (status == UCA_OK && (key = PyBytes_FromStringAndSize(NULL, (Py_ssize_t)needed))) {
        status = make(&self->collator, &self->settings, text.bytes, text.size, (uint8_t *)PyBytes_AsString(key), needed, &needed, &fault);
        if (status != UCA_OK)
            Py_CLEAR(key);
    }
    Py_DECREF(text.held);
    if (status != UCA_OK)
        refuse(status, &fault, number ? number : fault.text, from);
    return key;
}

static PyObject *collator_key(Collator *self, PyObject *text) { return key_of(self, library.uca_sort_key, text, 0); }

static PyObject *collator_packed_key(Collator *self, PyObject *text) { return key_of(self, library.uca_packed_key, text, 0); }

/* The keys of texts: a new list of the texts, in which each text is replaced by its key. */
static PyObject *keys_of(Collator *self, MakeKey make, PyObject *texts) {
    if (PyUnicode_Check(texts) || PyBytes_Check(texts)) {
        PyErr_SetString(PyExc_TypeError, "expected a list of texts, not one text");
        return NULL;
    }
    PyObject *list = PySequence_List(texts);
    if (!list)
        return NULL;
    Py_ssize_t size = PyList_Size(list);
    for (Py_ssize_t i = 0; i < size; i++) {
        PyObject *key = i % 4096 == 4095 && PyErr_CheckSignals() ? NULL : key_of(self, make, PyList_GetItem(list, i), (size_t)i + 1);
        if (!key || PyList_SetItem(list, i, key) < 0) {
            Py_DECREF(list);
            return NULL;
        }
    }
    return list;
}

static PyObject *collator_sort_keys(Collator *self, PyObject *texts) { return keys_of(self, library.uca_sort_key, texts); }

static PyObject *collator_packed_keys(Collator *self, PyObject *texts) { return keys_of(self, library.uca_packed_key, texts); }

static PyObject *bounds_of(Collator *self, FindBounds find_bounds, PyObject *from) {
    Text text;
    if (!take(from, "a text has", 0, &text))
        return NULL;
    size_t lower = 0, upper = 0, room = 8 * text.size + 64;
    uint32_t status = UCA_NO_MEMORY;
    uca_fault fault = {0, 0, 0};
    PyObject *bounds = NULL;
    uint8_t *ends;
    while ((ends = PyMem_Malloc(2 * room))) {
        status = find_bounds(&self->collator, &self->settings, text.bytes, text.size, ends, room, ends + room, room, &lower, &upper, &fault);
        if (status != UCA_OK || (lower <= room && upper <= room))
            break;
        PyMem_Free(ends);
        room = lower > upper ? lower : upper;
        status = UCA_NO_MEMORY;
    }
    if (status == UCA_OK)
        bounds = Py_BuildValue("y#y#", (char *)ends, (Py_ssize_t)lower, upper ? (char *)ends + room : NULL, (Py_ssize_t)upper);
    PyMem_Free(ends);
    Py_DECREF(text.held);
    if (status != UCA_OK)
        refuse(status, &fault, fault.text, from);
    return bounds;
}

static PyObject *collator_prefix_bounds(Collator *self, PyObject *text) { return bounds_of(self, library.uca_prefix_bounds, text); }

static PyObject *collator_packed_prefix_bounds(Collator *self, PyObject *text) {
    return bounds_of(self, library.uca_packed_prefix_bounds, text);
}

static PyObject *collator_fingerprint(Collator *self, PyObject *Py_UNUSED(none)) {
    uca_digest digest;
    uca_fault fault = {0, 0, 0};
    uint32_t status = library.uca_fingerprint(&self->collator, &self->settings, &digest);
    if (status != UCA_OK) {
        refuse(status, &fault, 0, Py_None);
        return NULL;
    }
    return PyBytes_FromStringAndSize((const char *)digest.bytes, sizeof digest.bytes);
}

static PyObject *collator_strength(Collator *self, void *Py_UNUSED(none)) { return PyLong_FromUnsignedLong(self->settings.strength); }

static PyObject *collator_variable(Collator *self, void *Py_UNUSED(none)) { return PyLong_FromUnsignedLong(self->settings.variable); }

static PyMethodDef collator_methods[] = {
    {"_explain", (PyCFunction)collator_explain, METH_VARARGS, NULL},
    {"_matches", (PyCFunction)collator_matches, METH_O, NULL},
    {"_share", (PyCFunction)collator_share, METH_VARARGS, NULL},
    {"close", (PyCFunction)collator_close, METH_NOARGS,
     "close($self, /)\n--\n\nReleases the table, which is freed with the last clone that shares it. All calls but close are refused from then on."},
    {"compare", (PyCFunction)collator_compare, METH_VARARGS,
     "compare($self, a, b, /)\n--\n\n-1, 0 or 1 if `a` comes before, is equal to or comes after `b`.\n\nRaises TextError, whose `text` is 1 or 2."},
    {"key", (PyCFunction)collator_key, METH_O,
     "key($self, text, /)\n--\n\nThe sort key of a text: bytes that compare as the texts do. At three levels it has about six bytes "
     "per letter.\n\nRaises TextError."},
    {"packed_key", (PyCFunction)collator_packed_key, METH_O,
     "packed_key($self, text, /)\n--\n\nThe packed key of a text: bytes in the same order as those of sort keys, and fewer of them. A packed "
     "key cannot be\ncompared with a sort key.\n\nRaises TextError."},
    {"sort_key", (PyCFunction)collator_key, METH_O, "sort_key($self, text, /)\n--\n\nThe same as key."},
    {"sort_keys", (PyCFunction)collator_sort_keys, METH_O,
     "sort_keys($self, texts, /)\n--\n\nThe sort keys of texts, in a list in the same order. Other threads wait until all are made.\n\nRaises "
     "TextError, whose `text` is the number of the text at fault, counted from 1."},
    {"packed_keys", (PyCFunction)collator_packed_keys, METH_O,
     "packed_keys($self, texts, /)\n--\n\nThe packed keys of texts, in a list, as from sort_keys."},
    {"prefix_bounds", (PyCFunction)collator_prefix_bounds, METH_O,
     "prefix_bounds($self, text, /)\n--\n\nThe ends of the range that holds the sort keys of all texts whose primary weights begin with\n"
     "those of `text`: exactly these sort keys are at or after the first end and before the second. The second is None if there\nis no "
     "upper end.\n\nA text that begins with `text` can be outside, if its next character joins the last ones, as in `cho` after `c` if "
     "`ch`\nis a letter.\n\nRaises TextError."},
    {"packed_prefix_bounds", (PyCFunction)collator_packed_prefix_bounds, METH_O,
     "packed_prefix_bounds($self, text, /)\n--\n\nThe ends of the range of the packed keys of the same texts, as prefix_bounds gives those "
     "of the sort keys.\n\nRaises TextError."},
    {"fingerprint", (PyCFunction)collator_fingerprint, METH_NOARGS,
     "fingerprint($self, /)\n--\n\nThe 32 bytes of the SHA-256 digest of everything that keys depend on. Store it with keys, and rebuild them if "
     "it differs.\nIt takes about as long as reading the table did."},
    {NULL, NULL, 0, NULL},
};

static PyGetSetDef collator_fields[] = {
    {"strength", (getter)collator_strength, NULL, "PRIMARY to IDENTICAL: how many levels are compared.", NULL},
    {"variable", (getter)collator_variable, NULL, "NON_IGNORABLE, BLANKED or SHIFTED: how punctuation is weighted.", NULL},
    {NULL, NULL, NULL, NULL, NULL},
};

static PyType_Slot collator_slots[] = {
    {Py_tp_new, collator_new},        {Py_tp_init, collator_init},     {Py_tp_dealloc, collator_dealloc},
    {Py_tp_methods, collator_methods}, {Py_tp_getset, collator_fields}, {0, NULL},
};

static PyType_Spec collator_spec = {"uca._uca.Collator", sizeof(Collator), 0, Py_TPFLAGS_DEFAULT | Py_TPFLAGS_BASETYPE, collator_slots};

static PyObject *three_numbers(uint32_t number) { return Py_BuildValue("III", number >> 16, number >> 8 & 255, number & 255); }

static PyObject *version(PyObject *Py_UNUSED(module), PyObject *Py_UNUSED(none)) { return three_numbers(library.uca_version()); }

static PyObject *unicode_version(PyObject *Py_UNUSED(module), PyObject *Py_UNUSED(none)) {
    return three_numbers(library.uca_unicode_version());
}

static PyObject *check(PyObject *Py_UNUSED(module), PyObject *from) {
    Text text;
    uca_fault fault;
    if (!take(from, "a text has", 0, &text))
        return NULL;
    uint32_t status = library.uca_check(text.bytes, text.size, &fault);
    Py_DECREF(text.held);
    if (status != UCA_OK) {
        refuse(status, &fault, fault.text, from);
        return NULL;
    }
    Py_RETURN_NONE;
}

static bool find(void *handle, const char *name, void *call) {
    void *found = dlsym(handle, name);
    if (!found)
        PyErr_Format(PyExc_ImportError, "%s", dlerror());
    memcpy(call, &found, sizeof found);
    return found;
}

/* Loads the library, which stays loaded, and keeps the callable that makes exceptions. */
static PyObject *load(PyObject *Py_UNUSED(module), PyObject *words) {
    PyObject *path, *maker;
    if (!PyArg_ParseTuple(words, "O&O:load", PyUnicode_FSConverter, &path, &maker))
        return NULL;
    void *handle = dlopen(PyBytes_AsString(path), RTLD_NOW | RTLD_LOCAL);
    Py_DECREF(path);
    if (!handle)
        return PyErr_Format(PyExc_ImportError, "%s", dlerror());
#define found(name) &&find(handle, #name, &library.name)
    if (!(true EACH_CALL(found)))
        return NULL;
    if (library.uca_version() >> 16 != UCA_VERSION >> 16)
        return PyErr_Format(PyExc_ImportError, "libuca has another major version: %u", library.uca_version() >> 16);
    Py_INCREF(maker);
    Py_XDECREF(error_of);
    error_of = maker;
    Py_RETURN_NONE;
}

static PyMethodDef module_methods[] = {
    {"load", load, METH_VARARGS, NULL},
    {"version", version, METH_NOARGS, "version()\n--\n\nThe version of the library, as three numbers."},
    {"unicode_version", unicode_version, METH_NOARGS,
     "unicode_version()\n--\n\nThe version of Unicode that decides how texts are decomposed, as three numbers."},
    {"check", check, METH_O,
     "check(text, /)\n--\n\nRaises TextError if a text cannot be collated: if it is not UTF-8, or has more than 60 nonstarters in a row."},
    {NULL, NULL, 0, NULL},
};

static struct PyModuleDef module = {PyModuleDef_HEAD_INIT, "uca._uca", NULL, -1, module_methods, NULL, NULL, NULL, NULL};

PyMODINIT_FUNC PyInit__uca(void) {
    PyObject *made = PyModule_Create(&module);
    PyObject *type = made ? PyType_FromSpec(&collator_spec) : NULL;
    if (!type || PyModule_AddObjectRef(made, "Collator", type) < 0 || PyModule_AddStringConstant(made, "LIBRARY_FOLDER", LIBRARY_FOLDER) < 0)
        Py_CLEAR(made);
    Py_XDECREF(type);
    return made;
}
