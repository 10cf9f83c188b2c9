/* What the files of the extension share. */
#ifndef CORE_H
#define CORE_H

#define PY_SSIZE_T_CLEAN
#define Py_LIMITED_API 0x030B0000
#include <Python.h>

#include "rlp.h"

/* The items of a tree, and the bytes of its strings one after another. */
struct tree {
    rlp_item *items;
    uint8_t *bytes;
    size_t count, items_room, len, bytes_room;
    PyObject *module;
};

/* What the module keeps. */
struct state {
    struct tree spare;          /* the memory of the last tree that was encoded, if it wasn't large */
    PyObject *decoding_error;   /* the function of rlp_proved.exceptions that makes a DecodingError */
    PyObject *encoding_error;   /* the class EncodingError */
};

PyObject *decode(PyObject *module, PyObject *args, PyObject *kwargs);
PyObject *decode_part(PyObject *module, PyObject *args);
PyObject *split_part(PyObject *module, PyObject *args);
PyObject *decode_transaction(PyObject *module, PyObject *value);
PyObject *decode_header(PyObject *module, PyObject *value);
PyObject *is_canonical(PyObject *module, PyObject *args, PyObject *kwargs);
PyObject *encode(PyObject *module, PyObject *value);
void drop_tree(struct tree *tree);

#endif
