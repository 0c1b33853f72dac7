/* The functions of one index, over texts and over integers, and columns of texts: the calls of libh3whole that ctypes
 * makes slowly, by the stable ABI of Python 3.10; and columns for Arrow. All else of the package works without it.
 *
 * Each function of an index takes the place of one in Python, and calls it for all that is not plain: another type of
 * argument, one passed by its name, an error. So errors are made in Python alone. */
#define Py_LIMITED_API 0x030a0000
#define PY_SSIZE_T_CLEAN
#include <Python.h>
#include <dlfcn.h>
#include <errno.h>
#include <stdint.h>
#include <stdlib.h>
#include <string.h>

typedef int OfIndex(uint64_t);
typedef uint32_t IndexAt(uint64_t, int, uint64_t *);
typedef uint32_t NumberAt(uint64_t, int, int64_t *);

/* The library's functions. */
static struct {
    OfIndex *is_valid_cell, *get_resolution, *get_base_cell_number, *is_pentagon, *is_res_class_iii, *is_valid_edge;
    IndexAt *to_parent, *to_center_child, *to_last_child;
    NumberAt *to_children_size, *to_child_pos;
    uint32_t (*edge_origin)(uint64_t, uint64_t *);
    uint32_t (*string_to_h3)(const char *, size_t, uint64_t *);
    uint32_t (*h3_to_string)(uint64_t, char *, size_t);
} library;

static const struct {
    const char *name;
    void *place;
} symbols[] = {
    {"h3w_isValidCell", &library.is_valid_cell},
    {"h3w_getResolution", &library.get_resolution},
    {"h3w_getBaseCellNumber", &library.get_base_cell_number},
    {"h3w_isPentagon", &library.is_pentagon},
    {"h3w_isResClassIII", &library.is_res_class_iii},
    {"h3w_isValidDirectedEdge", &library.is_valid_edge},
    {"h3w_cellToParent", &library.to_parent},
    {"h3w_cellToCenterChild", &library.to_center_child},
    {"h3w_cellToLastChild", &library.to_last_child},
    {"h3w_cellToChildrenSize", &library.to_children_size},
    {"h3w_cellToChildPos", &library.to_child_pos},
    {"h3w_getDirectedEdgeOrigin", &library.edge_origin},
    {"h3w_stringToH3", &library.string_to_h3},
    {"h3w_h3ToString", &library.h3_to_string},
};

/* ---- What is plain. Each returns 0, without an exception, of anything else. */

static int take_text(PyObject *given, uint64_t *index) {
    Py_ssize_t count;
    const char *text;
    if (PyUnicode_CheckExact(given)) {
        text = PyUnicode_AsUTF8AndSize(given, &count);
        if (text) return library.string_to_h3(text, (size_t)count, index) == 0;
        PyErr_Clear();
    }
    return 0;
}

static int take_integer(PyObject *given, uint64_t *index) {
    unsigned long long number;
    if (!PyLong_CheckExact(given)) return 0;
    number = PyLong_AsUnsignedLongLong(given);
    if (number == (unsigned long long)-1 && PyErr_Occurred()) {
        PyErr_Clear();
        return 0;
    }
    *index = number;
    return 1;
}

static int take_res(PyObject *given, int *res) {
    long number;
    if (!PyLong_CheckExact(given)) return 0;
    number = PyLong_AsLong(given);
    if (number == -1 && PyErr_Occurred()) PyErr_Clear();
    *res = (int)number;
    return number >= 0 && number <= 15;
}

static PyObject *give_text(uint64_t index) {
    char text[17];
    if (library.h3_to_string(index, text, sizeof text)) return PyErr_NoMemory();
    return PyUnicode_FromStringAndSize(text, (Py_ssize_t)strlen(text));
}

static PyObject *give_integer(uint64_t index) { return PyLong_FromUnsignedLongLong(index); }

/* ---- The functions in Python */

static PyObject *pass_on(PyObject *function, PyObject *const *given, Py_ssize_t count, PyObject *names) {
    Py_ssize_t named = names ? PyTuple_Size(names) : 0, i;
    PyObject *plain = PyTuple_New(count), *by_name = named ? PyDict_New() : NULL, *result = NULL;
    if (!plain || (named && !by_name)) goto done;
    for (i = 0; i < count; i++) {
        Py_INCREF(given[i]);
        if (PyTuple_SetItem(plain, i, given[i]) < 0) goto done;
    }
    for (i = 0; i < named; i++)
        if (PyDict_SetItem(by_name, PyTuple_GetItem(names, i), given[count + i]) < 0) goto done;
    result = PyObject_Call(function, plain, by_name);
done:
    Py_XDECREF(plain);
    Py_XDECREF(by_name);
    return result;
}

enum { MOST = 16 };
static PyObject *texts_in_python[MOST], *integers_in_python[MOST];

/* A function of one index, or of one and a resolution: `take` and `give` are those of texts or of integers. */
#define FUNCTION(kind, place, name, least, most)                                                                       \
    static PyObject *kind##_##name(PyObject *self, PyObject *const *given, Py_ssize_t count, PyObject *names) {        \
        uint64_t index = 0;                                                                                            \
        PyObject *result = NULL;                                                                                       \
        int is_plain = !names && count >= least && count <= most && take_##kind(given[0], &index);                     \
        (void)self;                                                                                                    \
        if (is_plain && name(index, count > 1 ? given[1] : NULL, give_##kind, &result)) return result;                 \
        return pass_on(kind##s_in_python[place], given, count, names);                                                 \
    }

typedef PyObject *Give(uint64_t);

/* Each of these returns 0 where the library refuses the index or the resolution is none. */
#define TEST(name, test, is_known)                                                                                     \
    static int name(uint64_t index, PyObject *res, Give *give, PyObject **result) {                                    \
        int found = library.test(index) == 1;                                                                          \
        (void)res;                                                                                                     \
        (void)give;                                                                                                    \
        if (!found && !(is_known)) return 0;                                                                           \
        *result = PyBool_FromLong(found);                                                                              \
        return 1;                                                                                                      \
    }
TEST(is_valid_cell, is_valid_cell, 1)
TEST(is_pentagon, is_pentagon, library.is_valid_cell(index) == 1)
TEST(is_res_class_III, is_res_class_iii, library.is_valid_cell(index) == 1)
TEST(is_valid_directed_edge, is_valid_edge, 1)

#define FIELD(name)                                                                                                    \
    static int name(uint64_t index, PyObject *res, Give *give, PyObject **result) {                                    \
        int found = library.name(index);                                                                               \
        (void)res;                                                                                                     \
        (void)give;                                                                                                    \
        if (found < 0) return 0;                                                                                       \
        *result = PyLong_FromLong(found);                                                                              \
        return 1;                                                                                                      \
    }
FIELD(get_resolution)
FIELD(get_base_cell_number)

/* The resolution that is given, or by default one beside the cell's. */
static int wanted_res(uint64_t index, PyObject *given, int step, int *res) {
    if (given && given != Py_None) return take_res(given, res);
    *res = library.get_resolution(index) + step;
    return step != 0 && *res >= 0 && *res <= 15;
}

#define INDEX_AT(name, function, step)                                                                                 \
    static int name(uint64_t index, PyObject *given, Give *give, PyObject **result) {                                  \
        int res;                                                                                                       \
        uint64_t found;                                                                                                \
        if (!wanted_res(index, given, step, &res) || library.function(index, res, &found)) return 0;                   \
        *result = give(found);                                                                                         \
        return 1;                                                                                                      \
    }
INDEX_AT(cell_to_parent, to_parent, -1)
INDEX_AT(cell_to_center_child, to_center_child, 1)
INDEX_AT(cell_to_last_child, to_last_child, 1)

#define NUMBER_AT(name, function, step)                                                                                \
    static int name(uint64_t index, PyObject *given, Give *give, PyObject **result) {                                  \
        int res;                                                                                                       \
        int64_t found;                                                                                                 \
        (void)give;                                                                                                    \
        if (!wanted_res(index, given, step, &res) || library.function(index, res, &found)) return 0;                   \
        *result = PyLong_FromLongLong(found);                                                                          \
        return 1;                                                                                                      \
    }
NUMBER_AT(cell_to_children_size, to_children_size, 1)
NUMBER_AT(cell_to_child_pos, to_child_pos, 0)

static int get_directed_edge_origin(uint64_t index, PyObject *res, Give *give, PyObject **result) {
    uint64_t found;
    (void)res;
    if (library.edge_origin(index, &found)) return 0;
    *result = give(found);
    return 1;
}

static int str_to_int(uint64_t index, PyObject *res, Give *give, PyObject **result) {
    (void)res;
    (void)give;
    *result = give_integer(index);
    return 1;
}

static int int_to_str(uint64_t index, PyObject *res, Give *give, PyObject **result) {
    (void)res;
    (void)give;
    *result = give_text(index);
    return 1;
}

#define OF_ONE_INDEX(kind)                                                                                             \
    FUNCTION(kind, 0, is_valid_cell, 1, 1)                                                                             \
    FUNCTION(kind, 1, get_resolution, 1, 1)                                                                            \
    FUNCTION(kind, 2, get_base_cell_number, 1, 1)                                                                      \
    FUNCTION(kind, 3, is_pentagon, 1, 1)                                                                               \
    FUNCTION(kind, 4, is_res_class_III, 1, 1)                                                                          \
    FUNCTION(kind, 5, is_valid_directed_edge, 1, 1)                                                                    \
    FUNCTION(kind, 6, cell_to_parent, 1, 2)                                                                            \
    FUNCTION(kind, 7, cell_to_center_child, 1, 2)                                                                      \
    FUNCTION(kind, 8, cell_to_last_child, 1, 2)                                                                        \
    FUNCTION(kind, 9, cell_to_children_size, 1, 2)                                                                     \
    FUNCTION(kind, 10, cell_to_child_pos, 2, 2)                                                                        \
    FUNCTION(kind, 11, get_directed_edge_origin, 1, 1)
OF_ONE_INDEX(text)
OF_ONE_INDEX(integer)

/* (it is in the module over integers, and takes a text) */
static PyObject *text_str_to_int(PyObject *self, PyObject *const *given, Py_ssize_t count, PyObject *names) {
    uint64_t index = 0;
    PyObject *result = NULL;
    (void)self;
    if (!names && count == 1 && take_text(given[0], &index) && str_to_int(index, NULL, NULL, &result)) return result;
    return pass_on(integers_in_python[12], given, count, names);
}
FUNCTION(integer, 13, int_to_str, 1, 1)

#define METHOD(kind, name)                                                                                             \
    { #name, (PyCFunction)(void (*)(void))kind##_##name, METH_FASTCALL | METH_KEYWORDS, NULL }
#define METHODS(kind)                                                                                                  \
    METHOD(kind, is_valid_cell), METHOD(kind, get_resolution), METHOD(kind, get_base_cell_number),                     \
        METHOD(kind, is_pentagon), METHOD(kind, is_res_class_III), METHOD(kind, is_valid_directed_edge),               \
        METHOD(kind, cell_to_parent), METHOD(kind, cell_to_center_child), METHOD(kind, cell_to_last_child),            \
        METHOD(kind, cell_to_children_size), METHOD(kind, cell_to_child_pos), METHOD(kind, get_directed_edge_origin)
static PyMethodDef of_texts[] = {METHODS(text), {NULL, NULL, 0, NULL}};
static PyMethodDef of_integers[] = {
    METHODS(integer), METHOD(text, str_to_int), METHOD(integer, int_to_str), {NULL, NULL, 0, NULL}};

/* ---- Columns of texts */

/* read_texts(list, place, count, address, with_bytes): the indexes of texts, and of bytes if they are asked for, from a
 * place on, each at its place from an address on, which has room for so many. It ends at the first item that is none or
 * is refused, or is not there, since another thread may make the list shorter or longer; its place is returned. */
static PyObject *read_texts(PyObject *self, PyObject *given) {
    PyObject *list;
    Py_ssize_t place, count, length;
    unsigned long long address;
    uint64_t *out;
    char *bytes;
    int with_bytes;
    (void)self;
    if (!PyArg_ParseTuple(given, "O!nnKp", &PyList_Type, &list, &place, &count, &address, &with_bytes)) return NULL;
    out = (uint64_t *)(uintptr_t)address;
    for (; place < count && place < PyList_Size(list); place++) {
        PyObject *item = PyList_GetItem(list, place);
        if (!with_bytes || !PyBytes_CheckExact(item)) {
            if (!take_text(item, out + place)) break;
        } else if (PyBytes_AsStringAndSize(item, &bytes, &length) < 0 ||
                   library.string_to_h3(bytes, (size_t)length, out + place))
            break;
    }
    return PyLong_FromSsize_t(place);
}

enum { NO_TEXT = -1, NOT_ASCII = -2 };

/* Writes characters of four bytes as bytes, and returns how many there are without the zeros at their end: NO_TEXT if
 * one is beyond Unicode, else NOT_ASCII if one is beyond ASCII. */
static Py_ssize_t narrow(char *to, const char *from, Py_ssize_t width) {
    Py_ssize_t length = width, i;
    uint32_t most = 0;
    for (i = 0; i < width; i++) {
        uint32_t character;
        memcpy(&character, from + sizeof character * (size_t)i, sizeof character);
        if (character > most) most = character;
        to[i] = (char)character;
    }
    while (length > 0 && to[length - 1] == 0) length--;
    if (most > 0x7f) return most > 0x10ffff ? NO_TEXT : NOT_ASCII;
    return length;
}

/* The same of characters of one byte, which are bytes of any kind. */
static Py_ssize_t trim(char *to, const char *from, Py_ssize_t width) {
    Py_ssize_t length = width;
    memcpy(to, from, (size_t)width);
    while (length > 0 && to[length - 1] == 0) length--;
    return length;
}

/* read_fixed(address, count, width, wide, out, missing): the indexes of numpy's texts, each of so many characters,
 * which have four bytes or one. It returns the place of the first that is no text, or is refused; with `missing`, what
 * is refused is 0. */
static PyObject *read_fixed(PyObject *self, PyObject *given) {
    unsigned long long address, to;
    Py_ssize_t count, width, place;
    int wide, missing;
    char *text;
    (void)self;
    if (!PyArg_ParseTuple(given, "KnnpKp", &address, &count, &width, &wide, &to, &missing)) return NULL;
    text = PyMem_Malloc((size_t)width + 1);
    if (!text) return PyErr_NoMemory();
    for (place = 0; place < count; place++) {
        const char *from = (const char *)(uintptr_t)address + (size_t)place * (size_t)width * (wide ? 4 : 1);
        uint64_t *out = (uint64_t *)(uintptr_t)to + place;
        Py_ssize_t length = (wide ? narrow : trim)(text, from, width);
        if (length >= 0 && library.string_to_h3(text, (size_t)length, out) == 0) continue;
        if (!missing || length == NO_TEXT) break;
        *out = 0;
    }
    PyMem_Free(text);
    return PyLong_FromSsize_t(place);
}

/* write_texts(address, count, or_none): the texts of so many indexes, as a list; with `or_none`, None for 0. */
static PyObject *write_texts(PyObject *self, PyObject *given) {
    unsigned long long address;
    Py_ssize_t count, i;
    PyObject *list;
    int or_none;
    (void)self;
    if (!PyArg_ParseTuple(given, "Knp", &address, &count, &or_none)) return NULL;
    list = PyList_New(count);
    for (i = 0; list && i < count; i++) {
        uint64_t index = ((const uint64_t *)(uintptr_t)address)[i];
        PyObject *text = or_none && index == 0 ? Py_None : give_text(index);
        if (text == Py_None) Py_INCREF(text);
        if (text && PyList_SetItem(list, i, text) == 0) continue;
        Py_DECREF(list);
        return NULL;
    }
    return list;
}

/* ---- Columns in Arrow's C data interface. What lets them go is here, and not in Python: it is also called while an
 * exception is set, with which no callback of ctypes may run. */

struct ArrowSchema {
    const char *format, *name, *metadata;
    int64_t flags, n_children;
    struct ArrowSchema **children, *dictionary;
    void (*release)(struct ArrowSchema *);
    void *private_data;
};

struct ArrowArray {
    int64_t length, null_count, offset, n_buffers, n_children;
    const void **buffers;
    struct ArrowArray **children, *dictionary;
    void (*release)(struct ArrowArray *);
    void *private_data;
};

struct ArrowArrayStream {
    int (*get_schema)(struct ArrowArrayStream *, struct ArrowSchema *);
    int (*get_next)(struct ArrowArrayStream *, struct ArrowArray *);
    const char *(*get_last_error)(struct ArrowArrayStream *);
    void (*release)(struct ArrowArrayStream *);
    void *private_data;
};

enum { NULLABLE = 2, BUFFERS = 3 };

/* What an array has: its buffers, which `owner` keeps. */
typedef struct {
    PyObject *owner;
    const void *buffers[BUFFERS];
} Buffers;

/* What a stream has: one array, until it is handed on. */
typedef struct {
    char format[2];
    struct ArrowArray array;
} Stream;

static void release_schema(struct ArrowSchema *schema) {
    free(schema->private_data);
    schema->release = NULL;
}

/* (by any thread, which may have an exception; after the end of Python there is nothing to let go) */
static void release_array(struct ArrowArray *array) {
    Buffers *buffers = array->private_data;
    if (Py_IsInitialized()) {
        PyGILState_STATE state = PyGILState_Ensure();
        PyObject *type, *value, *traceback;
        PyErr_Fetch(&type, &value, &traceback);
        Py_DECREF(buffers->owner);
        PyErr_Restore(type, value, traceback);
        PyGILState_Release(state);
    }
    free(buffers);
    array->release = NULL;
}

/* 0 where there is no memory. */
static int fill_schema(struct ArrowSchema *schema, const char *format) {
    char *own = malloc(2);
    memset(schema, 0, sizeof *schema);
    if (!own) return 0;
    own[0] = format[0];
    own[1] = 0;
    schema->format = own;
    schema->name = "";
    schema->flags = NULLABLE;
    schema->release = release_schema;
    schema->private_data = own;
    return 1;
}

/* A column as it comes from Python: (owner, format, length, null count, addresses of buffers). */
typedef struct {
    PyObject *owner;
    const char *format;
    long long length, nulls;
    unsigned long long addresses[BUFFERS];
    int count;
} Given;

static int take_column(PyObject *arguments, Given *given) {
    memset(given, 0, sizeof *given);
    if (!PyArg_ParseTuple(arguments, "OsLL(KKK)i", &given->owner, &given->format, &given->length, &given->nulls,
                          &given->addresses[0], &given->addresses[1], &given->addresses[2], &given->count))
        return 0;
    return 1;
}

static int fill_array(struct ArrowArray *array, const Given *given) {
    Buffers *buffers = malloc(sizeof *buffers);
    int i;
    memset(array, 0, sizeof *array);
    if (!buffers) return 0;
    for (i = 0; i < BUFFERS; i++) buffers->buffers[i] = (const void *)(uintptr_t)given->addresses[i];
    Py_INCREF(given->owner);
    buffers->owner = given->owner;
    array->length = given->length;
    array->null_count = given->nulls;
    array->n_buffers = given->count;
    array->buffers = buffers->buffers;
    array->release = release_array;
    array->private_data = buffers;
    return 1;
}

static int get_schema(struct ArrowArrayStream *stream, struct ArrowSchema *out) {
    return fill_schema(out, ((Stream *)stream->private_data)->format) ? 0 : ENOMEM;
}

static int get_next(struct ArrowArrayStream *stream, struct ArrowArray *out) {
    Stream *own = stream->private_data;
    *out = own->array;
    own->array.release = NULL;
    return 0;
}

static const char *get_last_error(struct ArrowArrayStream *stream) {
    (void)stream;
    return NULL;
}

static void release_stream(struct ArrowArrayStream *stream) {
    Stream *own = stream->private_data;
    if (own->array.release) own->array.release(&own->array);
    free(own);
    stream->release = NULL;
}

/* What a capsule's end does: it releases what nobody has taken over. */
#define CAPSULE(name, kind, text)                                                                                      \
    static void end_##name(PyObject *capsule) {                                                                        \
        struct kind *held = PyCapsule_GetPointer(capsule, text);                                                       \
        if (held->release) held->release(held);                                                                        \
        free(held);                                                                                                    \
    }                                                                                                                  \
    static PyObject *capsule_of_##name(struct kind *held) {                                                            \
        PyObject *capsule = PyCapsule_New(held, text, end_##name);                                                     \
        if (capsule) return capsule;                                                                                   \
        held->release(held);                                                                                           \
        free(held);                                                                                                    \
        return NULL;                                                                                                   \
    }
CAPSULE(schema, ArrowSchema, "arrow_schema")
CAPSULE(array, ArrowArray, "arrow_array")
CAPSULE(stream, ArrowArrayStream, "arrow_array_stream")

/* arrow_schema(format) */
static PyObject *arrow_schema(PyObject *self, PyObject *given) {
    const char *format;
    struct ArrowSchema *schema;
    (void)self;
    if (!PyArg_ParseTuple(given, "s", &format)) return NULL;
    schema = malloc(sizeof *schema);
    if (schema && fill_schema(schema, format)) return capsule_of_schema(schema);
    free(schema);
    return PyErr_NoMemory();
}

/* arrow_array(owner, format, length, null count, addresses, count of buffers) */
static PyObject *arrow_array(PyObject *self, PyObject *arguments) {
    Given given;
    struct ArrowArray *array;
    (void)self;
    if (!take_column(arguments, &given)) return NULL;
    array = malloc(sizeof *array);
    if (array && fill_array(array, &given)) return capsule_of_array(array);
    free(array);
    return PyErr_NoMemory();
}

/* arrow_stream(..): the same, as a stream of this one array. */
static PyObject *arrow_stream(PyObject *self, PyObject *arguments) {
    Given given;
    Stream *own;
    struct ArrowArrayStream *stream;
    (void)self;
    if (!take_column(arguments, &given)) return NULL;
    own = malloc(sizeof *own);
    stream = malloc(sizeof *stream);
    if (own && stream && fill_array(&own->array, &given)) {
        own->format[0] = given.format[0];
        own->format[1] = 0;
        stream->get_schema = get_schema;
        stream->get_next = get_next;
        stream->get_last_error = get_last_error;
        stream->release = release_stream;
        stream->private_data = own;
        return capsule_of_stream(stream);
    }
    free(own);
    free(stream);
    return PyErr_NoMemory();
}

/* ---- The module */

/* Puts the functions of a table into the place of those in Python, which are kept. */
static int put_functions(PyObject *self, PyMethodDef *table, PyObject **kept, PyObject *names, PyObject *module,
                         PyObject *docs) {
    size_t place;
    for (place = 0; table[place].ml_name; place++) {
        PyMethodDef *method = table + place;
        PyObject *python = PyDict_GetItemString(names, method->ml_name), *function;
        PyObject *doc = PyDict_GetItemString(docs, method->ml_name);
        if (kept[place] || !python || !doc) continue;
        method->ml_doc = PyUnicode_AsUTF8AndSize(doc, NULL);
        function = method->ml_doc ? PyCFunction_NewEx(method, self, module) : NULL;
        if (!function) return -1;
        Py_INCREF(doc);
        Py_INCREF(python);
        kept[place] = python;
        if (PyDict_SetItemString(names, method->ml_name, function) < 0) {
            Py_DECREF(function);
            return -1;
        }
        Py_DECREF(function);
    }
    return 0;
}

/* replace(names, module, docs, over_texts) */
static PyObject *replace(PyObject *self, PyObject *given) {
    PyObject *names, *module, *docs;
    int over_texts;
    if (!PyArg_ParseTuple(given, "O!UO!p", &PyDict_Type, &names, &module, &PyDict_Type, &docs, &over_texts))
        return NULL;
    if (put_functions(self, over_texts ? of_texts : of_integers, over_texts ? texts_in_python : integers_in_python,
                      names, module, docs) < 0)
        return NULL;
    Py_RETURN_NONE;
}

/* load(path): finds the functions of the shared object at a path. It stays loaded. */
static PyObject *load(PyObject *self, PyObject *path) {
    const char *text = PyUnicode_AsUTF8AndSize(path, NULL);
    void *object = text ? dlopen(text, RTLD_NOW | RTLD_LOCAL) : NULL;
    size_t i;
    (void)self;
    if (!text) return NULL;
    for (i = 0; object && i < sizeof symbols / sizeof *symbols; i++) {
        void *found = dlsym(object, symbols[i].name);
        if (!found) break;
        memcpy(symbols[i].place, &found, sizeof found);
    }
    if (!object || i < sizeof symbols / sizeof *symbols) {
        PyErr_SetString(PyExc_ImportError, dlerror());
        return NULL;
    }
    Py_RETURN_NONE;
}

static PyMethodDef methods[] = {
    {"load", load, METH_O, NULL},
    {"replace", replace, METH_VARARGS, NULL},
    {"read_texts", read_texts, METH_VARARGS, NULL},
    {"read_fixed", read_fixed, METH_VARARGS, NULL},
    {"write_texts", write_texts, METH_VARARGS, NULL},
    {"arrow_schema", arrow_schema, METH_VARARGS, NULL},
    {"arrow_array", arrow_array, METH_VARARGS, NULL},
    {"arrow_stream", arrow_stream, METH_VARARGS, NULL},
    {NULL, NULL, 0, NULL},
};

static struct PyModuleDef definition = {
    PyModuleDef_HEAD_INIT, "h3whole._native", NULL, -1, methods, NULL, NULL, NULL, NULL};

PyMODINIT_FUNC PyInit__native(void) { return PyModule_Create(&definition); }
