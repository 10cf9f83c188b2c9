#include "core.h"

#include <string.h>

/* No more memory than this is kept for the next tree. */
#define MOST_KEPT (1 << 20)

static int gather(struct tree *tree, PyObject *value, uint32_t depth);

/* Makes room for one more item and so many more bytes. Both rooms are at least doubled. */
static int grow(struct tree *tree, size_t len) {
    size_t items_room = 2 * tree->items_room + 64, bytes_room = 2 * tree->bytes_room + len + 1024;
    rlp_item *items = PyMem_Realloc(tree->items, items_room * sizeof *items);
    if (items != NULL) tree->items = items;
    uint8_t *bytes = items ? PyMem_Realloc(tree->bytes, bytes_room) : NULL;
    if (bytes == NULL) {
        PyErr_NoMemory();
        return -1;
    }
    tree->bytes = bytes;
    tree->items_room = items_room;
    tree->bytes_room = bytes_room;
    return 0;
}

static inline int put(struct tree *tree, const void *string, size_t len, uint32_t depth, uint32_t is_list) {
    if ((tree->count == tree->items_room || len > tree->bytes_room - tree->len) && grow(tree, len) < 0) return -1;
    tree->items[tree->count++] = (rlp_item){.offset = tree->len, .payload_len = len, .depth = depth, .is_list = is_list};
    memcpy(tree->bytes + tree->len, string, len);
    tree->len += len;
    return 0;
}

static int put_string(struct tree *tree, const void *string, size_t len, uint32_t depth) {
    return put(tree, string, len, depth, 0);
}

static int refuse(PyObject *module, const char *why, PyObject *value) {
    struct state *state = PyModule_GetState(module);
    PyObject *error = PyObject_CallFunction(state->encoding_error, "sO", why, value);
    if (error != NULL) PyErr_SetObject((PyObject *)Py_TYPE(error), error);
    Py_XDECREF(error);
    return -1;
}

static inline int put_bytes(struct tree *tree, PyObject *bytes, uint32_t depth) {
    char *string;
    Py_ssize_t len;
    return PyBytes_AsStringAndSize(bytes, &string, &len) < 0 ? -1 : put(tree, string, (size_t)len, depth, 0);
}

/* The list may change while a value in it is asked for its items. */
static int put_list(struct tree *tree, PyObject *list, uint32_t depth) {
    if (depth >= RLP_DEPTH_LIMIT) return refuse(tree->module, "there are more than 256 lists, one in the other", list);
    if (put(tree, "", 0, depth, 1) < 0) return -1;
    for (Py_ssize_t i = 0; i < PyList_Size(list); i++) {
        PyObject *value = PyList_GetItem(list, i);
        int done;
        if (PyBytes_CheckExact(value)) {
            done = put_bytes(tree, value, depth + 1);
        } else {
            Py_INCREF(value);
            done = gather(tree, value, depth + 1);
            Py_DECREF(value);
        }
        if (done < 0) return -1;
    }
    return 0;
}

/* A number of more than eight bytes. The methods are those of int itself, whatever the number's class says. */
static int put_long_number(struct tree *tree, PyObject *number, uint32_t depth) {
    PyObject *integer = (PyObject *)&PyLong_Type, *bits = PyObject_CallMethod(integer, "bit_length", "O", number);
    if (bits == NULL) return -1;
    size_t len = (PyLong_AsSize_t(bits) + 7) / 8;
    PyObject *digits = PyObject_CallMethod(integer, "to_bytes", "Ons", number, (Py_ssize_t)len, "big");
    int done = digits ? put_string(tree, PyBytes_AsString(digits), len, depth) : -1;
    Py_DECREF(bits);
    Py_XDECREF(digits);
    return done;
}

static int put_number(struct tree *tree, PyObject *number, uint32_t depth) {
    int overflow;
    long long small = PyLong_AsLongLongAndOverflow(number, &overflow);
    if (overflow > 0) return put_long_number(tree, number, depth);
    if (overflow < 0 || small < 0) return refuse(tree->module, "a number is negative", number);
    uint8_t digits[8];
    size_t len = 0;
    for (; small > 0; small >>= 8) digits[7 - len++] = (uint8_t)small;
    return put_string(tree, digits + 8 - len, len, depth);
}

static int put_text(struct tree *tree, PyObject *text, uint32_t depth) {
    Py_ssize_t len;
    const char *utf8 = PyUnicode_AsUTF8AndSize(text, &len);
    return utf8 ? put_string(tree, utf8, (size_t)len, depth) : -1;
}

static int put_buffer(struct tree *tree, PyObject *value, uint32_t depth) {
    Py_buffer view;
    if (PyObject_GetBuffer(value, &view, PyBUF_SIMPLE) < 0) return -1;
    int done = put_string(tree, view.buf, (size_t)view.len, depth);
    PyBuffer_Release(&view);
    return done;
}

static int put_sequence(struct tree *tree, PyObject *value, uint32_t depth) {
    PyObject *list = PySequence_List(value);
    int done = list ? put_list(tree, list, depth) : -1;
    Py_XDECREF(list);
    return done;
}

/* Appends the items of a value that is inside so many lists. */
static int gather(struct tree *tree, PyObject *value, uint32_t depth) {
    if (PyBytes_CheckExact(value)) return put_bytes(tree, value, depth);
    if (PyList_Check(value)) return put_list(tree, value, depth);
    if (PyLong_Check(value)) return put_number(tree, value, depth);
    if (PyUnicode_Check(value)) return put_text(tree, value, depth);
    if (PyObject_CheckBuffer(value)) return put_buffer(tree, value, depth);
    if (PySequence_Check(value)) return put_sequence(tree, value, depth);
    return refuse(tree->module, "the value isn't bytes, a number, text or a sequence of such", value);
}

/* The encoding of the items that were gathered. A header has at most 9 bytes. */
static PyObject *written(struct tree *tree) {
    size_t room = tree->len + 9 * tree->count, count = 0;
    uint8_t *out = PyMem_Malloc(room);
    if (out == NULL) return PyErr_NoMemory();
    uint32_t status = rlp_encode(tree->items, tree->count, tree->bytes, tree->len, out, room, &count);
    PyObject *bytes = status == RLP_OK ? PyBytes_FromStringAndSize((const char *)out, (Py_ssize_t)count) : NULL;
    if (status != RLP_OK) PyErr_Format(PyExc_SystemError, "rlp_encode answered %u", status);
    PyMem_Free(out);
    return bytes;
}

/* The encoding of one string, which is copied once. */
static PyObject *written_string(PyObject *value) {
    const uint8_t *string = (const uint8_t *)PyBytes_AsString(value);
    size_t len = (size_t)PyBytes_Size(value), count = 0;
    rlp_encode_bytes(string, len, NULL, 0, &count);
    PyObject *bytes = PyBytes_FromStringAndSize(NULL, (Py_ssize_t)count);
    if (bytes != NULL) rlp_encode_bytes(string, len, (uint8_t *)PyBytes_AsString(bytes), count, &count);
    return bytes;
}

void drop_tree(struct tree *tree) {
    PyMem_Free(tree->items);
    PyMem_Free(tree->bytes);
    *tree = (struct tree){0};
}

PyObject *encode(PyObject *module, PyObject *value) {
    if (PyBytes_CheckExact(value)) return written_string(value);
    struct state *state = PyModule_GetState(module);
    struct tree tree = state->spare;
    state->spare = (struct tree){0};
    tree.module = module;
    tree.count = tree.len = 0;
    PyObject *bytes = gather(&tree, value, 0) < 0 ? NULL : written(&tree);
    bool is_large = tree.items_room * sizeof *tree.items + tree.bytes_room > MOST_KEPT;
    drop_tree(is_large ? &tree : &state->spare);
    if (!is_large) state->spare = tree;
    return bytes;
}
