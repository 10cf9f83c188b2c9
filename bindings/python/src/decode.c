#include "core.h"

/* Items for which no memory is taken, and those that are tried at once. */
#define FEW 64
#define MANY 4096

struct items {
    rlp_item few[FEW];
    rlp_item *all;
    size_t cap, count;
    uint32_t transaction_type;
};

typedef uint32_t finder(const uint8_t *bytes, size_t len, uint32_t max_depth, struct items *items);

static uint32_t flatten(const uint8_t *bytes, size_t len, uint32_t max_depth, struct items *items) {
    return rlp_flatten(bytes, len, max_depth, items->all, items->cap, &items->count);
}

static uint32_t split(const uint8_t *bytes, size_t len, uint32_t max_depth, struct items *items) {
    (void)max_depth;
    return rlp_split(bytes, len, items->all, items->cap, &items->count);
}

static uint32_t transaction(const uint8_t *bytes, size_t len, uint32_t max_depth, struct items *items) {
    (void)max_depth;
    return rlp_transaction(bytes, len, &items->transaction_type, items->all, items->cap, &items->count);
}

static uint32_t header_fields(const uint8_t *bytes, size_t len, uint32_t max_depth, struct items *items) {
    (void)max_depth;
    return rlp_header_fields(bytes, len, items->all, items->cap, &items->count);
}

static void drop(struct items *items) {
    if (items->all != items->few) PyMem_Free(items->all);
}

static int make_room(struct items *items, size_t cap) {
    drop(items);
    items->cap = cap;
    items->all = PyMem_Malloc(cap * sizeof *items->all);
    if (items->all == NULL) PyErr_NoMemory();
    return items->all ? 0 : -1;
}

/* Where the item begins that rlp_flatten refuses: its walk once more, header by header. */
static size_t place_of_fault(const uint8_t *bytes, size_t len, uint32_t max_depth) {
    size_t ends[RLP_DEPTH_LIMIT + 1] = {len}, place = 0;
    uint32_t open = 0;
    rlp_item item;
    while (place < len || open == 0) {
        while (open > 0 && place == ends[open]) open--;
        if (rlp_header(bytes + place, ends[open] - place, &item) != RLP_OK) return place;
        size_t start = place + item.header_len, end = start + item.payload_len;
        if (open == 0 && end < len) return place;
        if (item.is_list && open == max_depth) return place;
        if (!item.is_list && rlp_decode_bytes(bytes + place, end - place, true, &item) != RLP_OK) return place;
        if (item.is_list) ends[++open] = end;
        place = item.is_list ? start : end;
    }
    return place;
}

/* Raises the error of a status, for a fault at this place of the value. */
static void refuse(PyObject *module, uint32_t status, size_t place, PyObject *value) {
    struct state *state = PyModule_GetState(module);
    PyObject *error = PyObject_CallFunction(state->decoding_error, "InO", status, (Py_ssize_t)place, value);
    if (error != NULL) PyErr_SetObject((PyObject *)Py_TYPE(error), error);
    Py_XDECREF(error);
}

/* Finds items in the caller's few places, or in memory of their own. Answers the status, or -1 for an exception. */
static int find(finder *call, const uint8_t *bytes, size_t len, uint32_t max_depth, struct items *items) {
    items->all = items->few;
    items->cap = FEW;
    size_t guess = len / 8 < MANY ? len / 8 : MANY;
    if (guess > FEW && make_room(items, guess) < 0) return -1;
    uint32_t status = call(bytes, len, max_depth, items);
    if (status == RLP_NO_ROOM) {
        if (make_room(items, items->count) < 0) return -1;
        status = call(bytes, len, max_depth, items);
    }
    return (int)status;
}

/* Sets the payload_len of each list to the number of its items. */
static void count_items(struct items *items) {
    rlp_item *lists[RLP_DEPTH_LIMIT];
    for (size_t i = 0; i < items->count; i++) {
        rlp_item *item = &items->all[i];
        if (item->depth > 0) lists[item->depth - 1]->payload_len++;
        if (!item->is_list) continue;
        item->payload_len = 0;
        lists[item->depth] = item;
    }
}

/* Makes the bytes and the lists that the items describe. */
static PyObject *build(const uint8_t *bytes, struct items *items) {
    PyObject *lists[RLP_DEPTH_LIMIT], *whole = NULL;
    Py_ssize_t filled[RLP_DEPTH_LIMIT];
    count_items(items);
    for (size_t i = 0; i < items->count; i++) {
        const rlp_item *item = &items->all[i];
        const char *payload = (const char *)bytes + item->offset + item->header_len;
        Py_ssize_t len = (Py_ssize_t)item->payload_len;
        PyObject *value = item->is_list ? PyList_New(len) : PyBytes_FromStringAndSize(payload, len);
        if (value == NULL) {
            Py_XDECREF(whole);
            return NULL;
        }
        if (item->is_list) {
            lists[item->depth] = value;
            filled[item->depth] = 0;
        }
        if (item->depth == 0) whole = value;
        else PyList_SetItem(lists[item->depth - 1], filled[item->depth - 1]++, value);
    }
    return whole;
}

/* Decodes bytes that begin at a place of a value. */
static PyObject *decode_at(PyObject *module, const uint8_t *bytes, size_t len, uint32_t max_depth, size_t place, PyObject *value) {
    struct items items;
    PyObject *whole = NULL;
    int status = find(flatten, bytes, len, max_depth, &items);
    if (status == RLP_OK) whole = build(bytes, &items);
    else if (status > 0) refuse(module, (uint32_t)status, place + place_of_fault(bytes, len, max_depth), value);
    drop(&items);
    return whole;
}

/* The depth that a caller allows, as a converter of arguments. */
static int parse_depth(PyObject *value, void *result) {
    Py_ssize_t depth = PyNumber_AsSsize_t(value, NULL);
    if (depth == -1 && PyErr_Occurred()) return 0;
    if (depth < 0) PyErr_SetString(PyExc_ValueError, "max_depth is negative");
    *(uint32_t *)result = depth < RLP_DEPTH_LIMIT ? (uint32_t)depth : RLP_DEPTH_LIMIT;
    return depth >= 0;
}

PyObject *decode(PyObject *module, PyObject *args, PyObject *kwargs) {
    static char *names[] = {"", "strict", "max_depth", NULL};
    PyObject *value;
    Py_buffer view;
    int strict = 1;
    uint32_t max_depth = RLP_DEPTH_LIMIT;
    if (!PyArg_ParseTupleAndKeywords(args, kwargs, "O|$pO&:decode", names, &value, &strict, parse_depth, &max_depth)) return NULL;
    if (PyObject_GetBuffer(value, &view, PyBUF_SIMPLE) < 0) return NULL;
    size_t len = (size_t)view.len;
    rlp_item first;
    if (!strict && rlp_header(view.buf, len, &first) == RLP_OK) len = first.header_len + first.payload_len;
    PyObject *whole = decode_at(module, view.buf, len, max_depth, 0, value);
    PyBuffer_Release(&view);
    return whole;
}

/* The place of a part, of which the caller says that it lies within the value. */
static int parse_part(PyObject *args, PyObject **value, Py_buffer *view, size_t *start, size_t *len) {
    Py_ssize_t first, last;
    if (!PyArg_ParseTuple(args, "Onn", value, &first, &last)) return -1;
    if (PyObject_GetBuffer(*value, view, PyBUF_SIMPLE) < 0) return -1;
    if (first < 0 || last < first || view->len < last) {
        PyErr_SetString(PyExc_IndexError, "the part isn't within the bytes");
        PyBuffer_Release(view);
        return -1;
    }
    *start = (size_t)first;
    *len = (size_t)(last - first);
    return 0;
}

PyObject *decode_part(PyObject *module, PyObject *args) {
    PyObject *value;
    Py_buffer view;
    size_t start, len;
    if (parse_part(args, &value, &view, &start, &len) < 0) return NULL;
    PyObject *whole = decode_at(module, (const uint8_t *)view.buf + start, len, RLP_DEPTH_LIMIT, start, value);
    PyBuffer_Release(&view);
    return whole;
}

/* A list of (start, stop, is_list), one for each item. */
static PyObject *places_of(const struct items *items, size_t start) {
    PyObject *places = PyList_New((Py_ssize_t)items->count);
    for (size_t i = 0; places != NULL && i < items->count; i++) {
        const rlp_item *item = &items->all[i];
        Py_ssize_t first = (Py_ssize_t)(start + item->offset);
        Py_ssize_t last = first + (Py_ssize_t)(item->header_len + item->payload_len);
        PyObject *place = Py_BuildValue("nnO", first, last, item->is_list ? Py_True : Py_False);
        if (place == NULL || PyList_SetItem(places, (Py_ssize_t)i, place) < 0) Py_CLEAR(places);
    }
    return places;
}

/* Where the item of the list begins that rlp_split refuses. */
static size_t place_in_list(const uint8_t *bytes, size_t len) {
    rlp_item item;
    if (rlp_header(bytes, len, &item) != RLP_OK || !item.is_list) return 0;
    size_t place = item.header_len;
    if (place + item.payload_len < len) return 0;
    while (place < len && rlp_header(bytes + place, len - place, &item) == RLP_OK) place += item.header_len + item.payload_len;
    return place;
}

PyObject *split_part(PyObject *module, PyObject *args) {
    PyObject *value, *places = NULL;
    Py_buffer view;
    size_t start, len;
    if (parse_part(args, &value, &view, &start, &len) < 0) return NULL;
    const uint8_t *bytes = (const uint8_t *)view.buf + start;
    struct items items;
    int status = find(split, bytes, len, 1, &items);
    if (status == RLP_OK) places = places_of(&items, start);
    else if (status > 0) refuse(module, (uint32_t)status, start + place_in_list(bytes, len), value);
    drop(&items);
    PyBuffer_Release(&view);
    return places;
}

/* Where a field of a list begins, which itself begins at this place. Field 0 is the whole. */
static size_t place_of_field(const uint8_t *bytes, size_t len, size_t start, size_t field) {
    rlp_item item;
    if (field == 0 || rlp_header(bytes + start, len - start, &item) != RLP_OK) return 0;
    size_t place = start + item.header_len;
    while (--field > 0 && rlp_header(bytes + place, len - place, &item) == RLP_OK) place += item.header_len + item.payload_len;
    return place;
}

/* The values of the fields of a record, of which a call finds the places. */
static PyObject *decode_fields(PyObject *module, PyObject *value, finder *call, struct items *items) {
    Py_buffer view;
    PyObject *fields = NULL;
    if (PyObject_GetBuffer(value, &view, PyBUF_SIMPLE) < 0) return NULL;
    const uint8_t *bytes = view.buf;
    size_t len = (size_t)view.len;
    int status = find(call, bytes, len, 1, items);
    size_t start = call == transaction && len > 0 && bytes[0] < 0xc0;
    if (status == RLP_OK) fields = PyList_New((Py_ssize_t)items->count);
    else if (status > 0) refuse(module, (uint32_t)status, place_of_field(bytes, len, start, items->count), value);
    for (size_t i = 0; fields != NULL && i < items->count; i++) {
        const rlp_item *item = &items->all[i];
        PyObject *field = decode_at(module, bytes + item->offset, item->header_len + item->payload_len, RLP_DEPTH_LIMIT, item->offset, value);
        if (field == NULL || PyList_SetItem(fields, (Py_ssize_t)i, field) < 0) Py_CLEAR(fields);
    }
    drop(items);
    PyBuffer_Release(&view);
    return fields;
}

PyObject *decode_transaction(PyObject *module, PyObject *value) {
    struct items items;
    PyObject *fields = decode_fields(module, value, transaction, &items);
    return fields ? Py_BuildValue("IN", items.transaction_type, fields) : NULL;
}

PyObject *decode_header(PyObject *module, PyObject *value) {
    struct items items;
    return decode_fields(module, value, header_fields, &items);
}

PyObject *is_canonical(PyObject *module, PyObject *args, PyObject *kwargs) {
    (void)module;
    static char *names[] = {"", "max_depth", NULL};
    Py_buffer view;
    uint32_t max_depth = RLP_DEPTH_LIMIT;
    if (!PyArg_ParseTupleAndKeywords(args, kwargs, "y*|$O&:is_canonical", names, &view, parse_depth, &max_depth)) return NULL;
    bool answer = rlp_is_canonical(view.buf, (size_t)view.len, max_depth);
    PyBuffer_Release(&view);
    return PyBool_FromLong(answer);
}
