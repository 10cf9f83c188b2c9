#include "plain.h"

#include <stdlib.h>
#include <string.h>

static uint64_t number_of(const uint8_t *digits, size_t len) {
    uint64_t number = 0;
    for (size_t i = 0; i < len; i++) number = number << 8 | digits[i];
    return number;
}

uint32_t plain_header(const uint8_t *bytes, size_t len, rlp_item *out) {
    if (len == 0) return RLP_IS_TOO_SHORT;
    bool is_list = bytes[0] >= 0xc0;
    rlp_item item = {.header_len = bytes[0] >= 0x80, .payload_len = 1, .is_list = is_list};
    if (item.header_len) item.payload_len = bytes[0] - (is_list ? 0xc0 : 0x80);
    if (item.payload_len > 55) {
        size_t digits = item.payload_len - 55;
        if (len == 1) return RLP_IS_TOO_SHORT;
        if (bytes[1] == 0) return is_list ? RLP_LIST_LEN_WITH_ZERO_PREFIX : RLP_DATA_LEN_WITH_ZERO_PREFIX;
        if (len - 1 < digits) return RLP_IS_TOO_SHORT;
        item.payload_len = number_of(bytes + 1, digits);
        item.header_len = 1 + digits;
        if (item.payload_len <= 55) return RLP_INVALID_INDIRECTION;
    }
    if (item.payload_len > len - item.header_len) return RLP_IS_TOO_SHORT;
    *out = item;
    return RLP_OK;
}

static uint32_t whole(const uint8_t *bytes, size_t len, rlp_item *out) {
    uint32_t status = plain_header(bytes, len, out);
    if (status) return status;
    return out->header_len + out->payload_len < len ? RLP_IS_TOO_BIG : RLP_OK;
}

uint32_t plain_split(const uint8_t *bytes, size_t len, rlp_item *out, size_t cap, size_t *count) {
    rlp_item list, item;
    if (len == 0 || bytes[0] < 0xc0) return RLP_EXPECTED_TO_BE_LIST;
    uint32_t status = whole(bytes, len, &list);
    size_t place = status ? len : list.header_len, found = 0;
    while (place < len) {
        status = plain_header(bytes + place, len - place, &item);
        if (status) break;
        item.offset = place;
        item.depth = 1;
        if (found < cap) out[found] = item;
        found++;
        place += item.header_len + item.payload_len;
    }
    if (status) return status;
    *count = found;
    return found <= cap ? RLP_OK : RLP_NO_ROOM;
}

struct walk {
    const uint8_t *bytes;
    rlp_item *out;
    size_t cap, count;
    uint32_t max_depth;
};

/* Finds the items of the item at `*place`, which ends before `end`, and moves `*place` behind it. */
static uint32_t walk(struct walk *w, size_t *place, size_t end, uint32_t depth) {
    rlp_item item;
    uint32_t status = plain_header(w->bytes + *place, end - *place, &item);
    if (status) return status;
    item.offset = *place;
    item.depth = depth;
    if (w->count < w->cap) w->out[w->count] = item;
    w->count++;
    *place += item.header_len;
    size_t stop = *place + item.payload_len;
    if (!item.is_list) {
        bool needless = item.header_len == 1 && item.payload_len == 1 && w->bytes[*place] < 0x80;
        *place = stop;
        return needless ? RLP_INVALID_INDIRECTION : RLP_OK;
    }
    if (depth == w->max_depth) return RLP_TOO_DEEP;
    while (*place < stop) {
        status = walk(w, place, stop, depth + 1);
        if (status) return status;
    }
    return RLP_OK;
}

uint32_t plain_flatten(const uint8_t *bytes, size_t len, uint32_t max_depth, rlp_item *out, size_t cap, size_t *count) {
    struct walk w = {bytes, out, cap, 0, max_depth < RLP_DEPTH_LIMIT ? max_depth : RLP_DEPTH_LIMIT};
    rlp_item top;
    uint32_t status = whole(bytes, len, &top);
    size_t place = 0;
    if (!status) status = walk(&w, &place, len, 0);
    if (status) return status;
    *count = w.count;
    return w.count <= cap ? RLP_OK : RLP_NO_ROOM;
}

/* The lengths of the header and the payload of the string that some bytes begin with. */
static uint32_t string_at(const uint8_t *bytes, size_t len, size_t *header_len, size_t *payload_len) {
    if (len == 0) return RLP_IS_TOO_SHORT;
    if (bytes[0] >= 0xc0) return RLP_EXPECTED_TO_BE_DATA;
    *header_len = bytes[0] >= 0x80;
    *payload_len = 1;
    if (*header_len == 0) return RLP_OK;
    *payload_len = bytes[0] - 0x80;
    if (*payload_len > 55) {
        size_t digits = *payload_len - 55;
        if (len - 1 < digits) return RLP_INCONSISTENT_LENGTH_AND_DATA;
        if (bytes[1] == 0) return RLP_INVALID_INDIRECTION;
        *header_len = 1 + digits;
        *payload_len = number_of(bytes + 1, digits);
        if (*payload_len <= 55) return RLP_INVALID_INDIRECTION;
        if (*payload_len > SIZE_MAX - *header_len) return RLP_INVALID_LENGTH;
    }
    if (*payload_len > len - *header_len) return RLP_INCONSISTENT_LENGTH_AND_DATA;
    return *payload_len == 1 && bytes[1] < 0x80 ? RLP_INVALID_INDIRECTION : RLP_OK;
}

uint32_t plain_decode_bytes(const uint8_t *bytes, size_t len, bool strict, rlp_item *out) {
    size_t header_len, payload_len;
    uint32_t status = string_at(bytes, len, &header_len, &payload_len);
    if (status) return status;
    if (strict && header_len + payload_len < len) return RLP_IS_TOO_BIG;
    *out = (rlp_item){.header_len = header_len, .payload_len = payload_len};
    return RLP_OK;
}

uint32_t plain_decode_uint(const uint8_t *bytes, size_t len, bool strict, size_t width, rlp_item *out) {
    rlp_item item;
    uint32_t status = plain_decode_bytes(bytes, len, strict, &item);
    if (status) return status;
    if (item.payload_len > width) return RLP_IS_TOO_BIG;
    if (item.payload_len > 0 && bytes[item.header_len] == 0) return RLP_INVALID_INDIRECTION;
    *out = item;
    return RLP_OK;
}

uint32_t plain_decode_u64(const uint8_t *bytes, size_t len, bool strict, uint64_t *out) {
    rlp_item item;
    uint32_t status = plain_decode_uint(bytes, len, strict, 8, &item);
    if (!status) *out = number_of(bytes + item.header_len, item.payload_len);
    return status;
}

static size_t write_digits(uint64_t number, uint8_t *out) {
    size_t len = 0;
    while (len < 8 && number >> (8 * len)) len++;
    for (size_t i = 0; i < len; i++) out[i] = (uint8_t)(number >> (8 * (len - 1 - i)));
    return len;
}

size_t plain_write_header(bool is_list, size_t payload_len, uint8_t *out) {
    uint8_t base = is_list ? 0xc0 : 0x80;
    size_t digits = payload_len > 55 ? write_digits(payload_len, out + 1) : 0;
    out[0] = (uint8_t)(base + (digits ? 55 + digits : payload_len));
    return 1 + digits;
}

size_t plain_write_string(const uint8_t *bytes, size_t len, uint8_t *out) {
    size_t header = len == 1 && bytes[0] < 0x80 ? 0 : plain_write_header(false, len, out);
    if (len) memcpy(out + header, bytes, len);
    return header + len;
}

size_t plain_write_u64(uint64_t number, uint8_t *out) {
    uint8_t digits[8];
    return plain_write_string(digits, write_digits(number, digits), out);
}

/* Whether an item may stand here, and lies within `len` bytes. */
static bool fits(const rlp_item *items, size_t at, size_t len) {
    const rlp_item *item = &items[at], *before = item - 1;
    if (at == 0 ? item->depth != 0 : item->depth == 0 || item->depth > before->depth + (before->is_list != 0)) return false;
    if (item->depth + (item->is_list != 0) > RLP_DEPTH_LIMIT) return false;
    if (item->is_list) return true;
    return item->offset <= len && item->header_len <= len - item->offset && item->payload_len <= len - item->offset - item->header_len;
}

/* Sets the lengths of the payloads, from the last item to the first. Answers the length of the whole. */
static size_t measure(const rlp_item *items, size_t items_len, const uint8_t *bytes, size_t *payloads) {
    size_t inside[RLP_DEPTH_LIMIT + 2] = {0};
    uint8_t header[9];
    for (size_t at = items_len; at-- > 0;) {
        const rlp_item *item = &items[at];
        size_t *mine = &inside[item->depth];
        payloads[at] = item->is_list ? mine[1] : item->payload_len;
        mine[1] = 0;
        bool is_bare = !item->is_list && item->payload_len == 1 && bytes[item->offset + item->header_len] < 0x80;
        *mine += payloads[at] + (is_bare ? 0 : plain_write_header(item->is_list, payloads[at], header));
    }
    return inside[0];
}

uint32_t plain_encode(const rlp_item *items, size_t items_len, const uint8_t *bytes, size_t len, uint8_t *out,
                      size_t cap, size_t *count) {
    for (size_t at = 0; at < items_len; at++)
        if (!fits(items, at, len)) return RLP_BAD_ITEMS;
    if (items_len == 0) return RLP_BAD_ITEMS;
    size_t *payloads = malloc(items_len * sizeof *payloads);
    *count = measure(items, items_len, bytes, payloads);
    for (size_t at = 0; at < items_len && *count <= cap; at++) {
        const rlp_item *item = &items[at];
        if (item->is_list) out += plain_write_header(true, payloads[at], out);
        else out += plain_write_string(bytes + item->offset + item->header_len, item->payload_len, out);
    }
    free(payloads);
    return *count <= cap ? RLP_OK : RLP_NO_ROOM;
}

static void put_text(struct walk *w, uint8_t *out, const char *text) {
    for (; *text; text++, w->count++)
        if (w->count < w->cap) out[w->count] = (uint8_t)*text;
}

static const char *name_of(uint32_t status) {
    switch (status) {
    case RLP_IS_TOO_SHORT: return "RlpIsTooShort";
    case RLP_DATA_LEN_WITH_ZERO_PREFIX: return "RlpDataLenWithZeroPrefix";
    case RLP_LIST_LEN_WITH_ZERO_PREFIX: return "RlpListLenWithZeroPrefix";
    default: return "RlpInvalidIndirection";
    }
}

/* Writes the text of an item, and of those in it, by the walk's limit of depth. */
static uint32_t put_item(struct walk *w, size_t place, const rlp_item *item, uint32_t depth, uint8_t *out) {
    static const char DIGITS[] = "0123456789abcdef";
    place += item->header_len;
    size_t end = place + item->payload_len;
    rlp_item inner;
    if (!item->is_list) {
        put_text(w, out, "\"0x");
        for (; place < end; place++) put_text(w, out, (char[]){DIGITS[w->bytes[place] >> 4], DIGITS[w->bytes[place] & 15], 0});
        put_text(w, out, "\"");
        return RLP_OK;
    }
    if (depth == w->max_depth) return RLP_TOO_DEEP;
    put_text(w, out, "[");
    for (bool is_first = true; plain_header(w->bytes + place, end - place, &inner) == RLP_OK; is_first = false) {
        if (!is_first) put_text(w, out, ", ");
        if (put_item(w, place, &inner, depth + 1, out)) return RLP_TOO_DEEP;
        place += inner.header_len + inner.payload_len;
    }
    put_text(w, out, "]");
    return RLP_OK;
}

uint32_t plain_text(const uint8_t *bytes, size_t len, uint8_t *out, size_t cap, size_t *count) {
    struct walk w = {bytes, NULL, cap, 0, RLP_DEPTH_LIMIT};
    rlp_item item;
    uint32_t status = plain_header(bytes, len, &item);
    if (status) put_text(&w, out, len ? name_of(status) : "null");
    else if (put_item(&w, 0, &item, 0, out)) return RLP_TOO_DEEP;
    *count = w.count;
    return w.count <= cap ? RLP_OK : RLP_NO_ROOM;
}
