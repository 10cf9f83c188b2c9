#include "core.h"

PyDoc_STRVAR(decode_doc,
"decode(rlp, /, *, strict=True, max_depth=256)\n--\n\n"
"Return the value whose canonical encoding the bytes are: bytes, or a list of values.\n\n"
"If strict is false, other bytes may follow the encoding. Lists may be nested max_depth deep, and no deeper than\n"
"256. Raise DecodingError for other bytes.");

PyDoc_STRVAR(encode_doc,
"encode(value, /)\n--\n\n"
"Return the canonical encoding of a value: bytes, a number that isn't negative, text, or a sequence of values.\n\n"
"Text is encoded as UTF-8. Raise EncodingError for a value of another type, and for more than 256 lists, one in\n"
"the other.");

PyDoc_STRVAR(is_canonical_doc,
"is_canonical(rlp, /, *, max_depth=256)\n--\n\n"
"Return whether decode gives a value for these bytes. No value is made.");

PyDoc_STRVAR(decode_transaction_doc,
"decode_transaction(rlp, /)\n--\n\n"
"Return the type and the fields of the standalone transaction that the bytes are, as in EIP-2718: bytes, and lists of\n"
"values. The type is 0 for a legacy transaction. Each field is tested. Raise DecodingError for other bytes.");

PyDoc_STRVAR(decode_header_doc,
"decode_header(rlp, /)\n--\n\n"
"Return the fields of the header of a block that the bytes are. Raise DecodingError for other bytes.");

PyDoc_STRVAR(decode_part_doc,
"decode_part(rlp, start, stop, /)\n--\n\n"
"Return what decode gives for rlp[start:stop].");

PyDoc_STRVAR(split_part_doc,
"split_part(rlp, start, stop, /)\n--\n\n"
"Return (start, stop, is_list) for each item of the list that rlp[start:stop] is, by places in rlp.");

static PyMethodDef methods[] = {
    {"decode", (PyCFunction)(void (*)(void))decode, METH_VARARGS | METH_KEYWORDS, decode_doc},
    {"encode", encode, METH_O, encode_doc},
    {"is_canonical", (PyCFunction)(void (*)(void))is_canonical, METH_VARARGS | METH_KEYWORDS, is_canonical_doc},
    {"decode_transaction", decode_transaction, METH_O, decode_transaction_doc},
    {"decode_header", decode_header, METH_O, decode_header_doc},
    {"decode_part", decode_part, METH_VARARGS, decode_part_doc},
    {"split_part", split_part, METH_VARARGS, split_part_doc},
    {NULL, NULL, 0, NULL},
};

static int exec(PyObject *module) {
    struct state *state = PyModule_GetState(module);
    PyObject *exceptions = PyImport_ImportModule("rlp_proved.exceptions");
    if (exceptions == NULL) return -1;
    state->decoding_error = PyObject_GetAttrString(exceptions, "decoding_error");
    state->encoding_error = PyObject_GetAttrString(exceptions, "EncodingError");
    Py_DECREF(exceptions);
    return state->decoding_error && state->encoding_error ? 0 : -1;
}

static int traverse(PyObject *module, visitproc visit, void *arg) {
    struct state *state = PyModule_GetState(module);
    Py_VISIT(state->decoding_error);
    Py_VISIT(state->encoding_error);
    return 0;
}

static int clear(PyObject *module) {
    struct state *state = PyModule_GetState(module);
    Py_CLEAR(state->decoding_error);
    Py_CLEAR(state->encoding_error);
    return 0;
}

static void free_state(void *module) {
    clear(module);
    drop_tree(&((struct state *)PyModule_GetState(module))->spare);
}

static PyModuleDef_Slot slots[] = {
    {Py_mod_exec, exec},
    {0, NULL},
};

static PyModuleDef definition = {
    .m_base = PyModuleDef_HEAD_INIT,
    .m_name = "rlp_proved._core",
    .m_doc = "The functions that are written in C.",
    .m_size = sizeof(struct state),
    .m_methods = methods,
    .m_slots = slots,
    .m_traverse = traverse,
    .m_clear = clear,
    .m_free = free_state,
};

PyMODINIT_FUNC PyInit__core(void) {
    return PyModuleDef_Init(&definition);
}
