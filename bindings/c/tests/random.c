/* random SEED N: the answers for N random encodings, many of them spoiled, are those of a plain implementation. */
#include "check.h"
#include "plain.h"

#include <stdio.h>
#include <stdlib.h>
#include <string.h>

#define MOST 65536

static uint64_t source;
static uint8_t made[MOST];
static rlp_item wanted[MOST];
static uint8_t encoded[8 * MOST];

/* Whether an item gets a header that isn't the shortest, which is one in sixteen then. */
static bool is_odd;

/* Writes the header of a payload. An odd one is in front of a byte that needs none, or has a needless length. */
static size_t make_header(bool is_list, const uint8_t *payload, size_t len, uint8_t *out) {
    uint8_t base = is_list ? 0xc0 : 0x80;
    if (!is_odd || draw_below(&source, 16)) return !is_list && len == 1 && payload[0] < 0x80 ? 0 : plain_write_header(is_list, len, out);
    size_t digits = len <= 55 ? draw_below(&source, 3) : len <= 255 ? 1 : 2;
    out[0] = (uint8_t)(base + (digits ? 55 + digits : len));
    for (size_t i = 0; i < digits; i++) out[1 + i] = (uint8_t)(len >> 8 * (digits - 1 - i));
    return 1 + digits;
}

/* Writes the encoding of a random item of at most this depth. Answers its length, which is less than `room`. */
static size_t make_item(uint8_t *out, size_t room, size_t depth) {
    static const size_t LENGTHS[] = {0, 1, 1, 2, 3, 8, 20, 32, 54, 55, 56, 57, 255, 256, 300};
    static const size_t COUNTS[] = {0, 1, 2, 3, 9};
    uint8_t header[9];
    size_t len = 0;
    bool is_list = depth > 0 && room >= 400 && draw_below(&source, 2);
    if (is_list) {
        for (size_t left = COUNTS[draw_below(&source, 5)]; left > 0; left--) len += make_item(out + len, room - len - 9, depth - 1);
    } else {
        len = room < 400 ? 0 : LENGTHS[draw_below(&source, sizeof LENGTHS / sizeof *LENGTHS)];
        for (size_t i = 0; i < len; i++) out[i] = (uint8_t)(i ? draw(&source) : draw(&source) >> draw_below(&source, 64));
    }
    size_t header_len = make_header(is_list, out, len, header);
    memmove(out + header_len, out, len);
    memcpy(out, header, header_len);
    return header_len + len;
}

/* Changes, drops or adds a byte, or cuts the bytes. Answers their number. */
static size_t spoil(uint8_t *bytes, size_t len) {
    static const uint8_t OFTEN[] = {0, 0x37, 0x38, 0x7f, 0x80, 0x81, 0xb7, 0xb8, 0xbf, 0xc0, 0xf7, 0xf8, 0xff};
    size_t at = draw_below(&source, len), kind = draw_below(&source, 8);
    uint8_t byte = kind < 4 ? OFTEN[draw_below(&source, sizeof OFTEN)] : (uint8_t)draw(&source);
    if (kind == 7) return at;
    if (kind == 6) memmove(bytes + at, bytes + at + 1, len - at - 1);
    else if (kind == 5) memmove(bytes + at + 1, bytes + at, len - at);
    if (kind != 6) bytes[at] = byte;
    return len + (kind == 5) - (kind == 6);
}

/* The items of a whole tree, and with one element too few only their number. Elements behind the items stay. */
static bool flattens(const uint8_t *bytes, size_t len, uint32_t max_depth, size_t *found) {
    size_t count = 77, want = 77, behind = len % 3;
    uint32_t status = plain_flatten(bytes, len, max_depth, wanted, MOST, &want);
    size_t cap = status ? len : want + behind;
    rlp_item *items = status ? room_for(ITEMS, cap * sizeof *items) : items_for(want, behind);
    if (rlp_flatten(bytes, len, max_depth, items, cap, &count) != status || count != want) return false;
    if (rlp_is_canonical(bytes, len, max_depth) != (status == RLP_OK)) return false;
    *found = status ? 0 : count;
    if (status) return true;
    if (!same_items(items, wanted, count) || !are_marked(items + count, behind)) return false;
    items = room_for(ITEMS, (want - 1) * sizeof *items);
    count = 0;
    return rlp_flatten(bytes, len, max_depth, items, want - 1, &count) == RLP_NO_ROOM && count == want;
}

static bool splits(const uint8_t *bytes, size_t len) {
    size_t count = 77, want = 77, behind = len % 3;
    uint32_t status = plain_split(bytes, len, wanted, MOST, &want);
    size_t cap = status ? len : want + behind;
    rlp_item *items = status ? room_for(ITEMS, cap * sizeof *items) : items_for(want, behind);
    if (rlp_split(bytes, len, items, cap, &count) != status || count != want) return false;
    if (status) return true;
    if (!same_items(items, wanted, count) || !are_marked(items + count, behind)) return false;
    if (want == 0) return true;
    items = room_for(ITEMS, (want - 1) * sizeof *items);
    return rlp_split(bytes, len, items, want - 1, &count) == RLP_NO_ROOM && count == want;
}

/* The item, string and numbers that the bytes begin with. After a fault the results are as they were. */
static bool reads_values(const uint8_t *bytes, size_t len, bool strict, size_t width) {
    rlp_item untouched = {1, 2, 3, 4, 5}, *found = room_for(ITEMS, sizeof *found), want = untouched;
    uint64_t *number = room_for(OUTPUT, sizeof *number), want_number = 77;
    *found = untouched;
    uint32_t status = rlp_header(bytes, len, found);
    if (status != plain_header(bytes, len, &want) || !same_items(found, &want, 1)) return false;
    *found = want = untouched;
    status = rlp_decode_bytes(bytes, len, strict, found);
    if (status != plain_decode_bytes(bytes, len, strict, &want) || !same_items(found, &want, 1)) return false;
    *found = want = untouched;
    status = rlp_decode_uint(bytes, len, strict, width, found);
    if (status != plain_decode_uint(bytes, len, strict, width, &want) || !same_items(found, &want, 1)) return false;
    *number = want_number;
    status = rlp_decode_u64(bytes, len, strict, number);
    return status == plain_decode_u64(bytes, len, strict, &want_number) && *number == want_number;
}

/* Whether a call wrote these bytes, and with one byte too few room wrote nothing. */
#define WRITES(want, want_len, call)                                                                                   \
    do {                                                                                                               \
        size_t count = 0, cap = (want_len);                                                                            \
        uint8_t *out = room_for(OUTPUT, cap);                                                                          \
        if ((call) != RLP_OK || count != cap || memcmp(out, (want), cap) != 0) return false;                           \
        cap--;                                                                                                         \
        out = room_for(OUTPUT, cap);                                                                                   \
        memset(out, 0xa5, cap);                                                                                        \
        if ((call) != RLP_NO_ROOM || count != cap + 1) return false;                                                   \
        for (size_t i = 0; i < cap; i++)                                                                               \
            if (out[i] != 0xa5) return false;                                                                          \
    } while (0)

static bool writes_values(const uint8_t *bytes, size_t len) {
    uint64_t number = draw(&source) >> draw_below(&source, 64);
    bool is_list = draw_below(&source, 2);
    WRITES(encoded, plain_write_u64(number, encoded), rlp_encode_u64(number, out, cap, &count));
    WRITES(encoded, plain_write_header(is_list, number, encoded), rlp_encode_header(is_list, number, out, cap, &count));
    WRITES(encoded, plain_write_string(bytes, len, encoded), rlp_encode_bytes(bytes, len, out, cap, &count));
    size_t text_len = 0;
    if (plain_text(bytes, len, encoded, sizeof encoded, &text_len) != RLP_OK) return false;
    WRITES(encoded, text_len, rlp_text(bytes, len, out, cap, &count));
    return true;
}

/* The encoding of a tree, or that the items describe none. */
static bool writes_tree(const rlp_item *items, size_t items_len, const uint8_t *bytes, size_t len) {
    size_t want = 77, count = 77, cap;
    uint32_t status = plain_encode(items, items_len, bytes, len, encoded, sizeof encoded, &want);
    if (status == RLP_NO_ROOM) return true;
    cap = status ? len : want;
    uint8_t *out = room_for(OUTPUT, cap);
    if (rlp_encode(items, items_len, bytes, len, out, cap, &count) != status || count != want) return false;
    if (status) return true;
    WRITES(encoded, want, rlp_encode(items, items_len, bytes, len, out, cap, &count));
    return true;
}

/* Changes an item so that perhaps no tree is described. */
static void spoil_items(rlp_item *items, size_t count) {
    rlp_item *item = &items[draw_below(&source, count)];
    size_t kind = draw_below(&source, 5);
    if (kind == 0) item->depth += (uint32_t)draw_below(&source, 3) - 1;
    else if (kind == 1) item->is_list = item->is_list ? 0 : (uint32_t)draw_below(&source, 3);
    else if (kind == 2) item->offset = draw_below(&source, 4) ? item->offset + draw_below(&source, 9) : draw(&source);
    else if (kind == 3) item->payload_len = draw_below(&source, 4) ? draw_below(&source, 300) : draw(&source);
    else item->header_len = draw(&source) >> draw_below(&source, 64);
}

static bool round_trip(void) {
    is_odd = draw_below(&source, 4) == 0;
    size_t len = make_item(made, MOST / 2, draw_below(&source, 6)), found = 0;
    if (draw_below(&source, 4) == 0) len = spoil(made, len);
    uint32_t max_depth = draw_below(&source, 4) ? RLP_DEPTH_LIMIT + 1 : (uint32_t)draw_below(&source, 5);
    const uint8_t *bytes = copied(INPUT, made, len);
    if (!flattens(bytes, len, max_depth, &found)) return false;
    rlp_item *items = malloc((found + 1) * sizeof *items);
    memcpy(items, wanted, found * sizeof *items);
    bool holds = writes_tree(items, found, bytes, len);
    if (found > 0) spoil_items(items, found);
    holds = holds && writes_tree(items, found, bytes, len);
    free(items);
    holds = holds && splits(bytes, len) && reads_values(bytes, len, draw_below(&source, 2), draw_below(&source, 40));
    return holds && writes_values(bytes, len);
}

int main(int argc, char **argv) {
    if (argc != 3) return 2;
    source = strtoull(argv[1], NULL, 10);
    for (long left = atol(argv[2]); left > 0; left--) {
        uint64_t start = source;
        if (!CHECK(round_trip())) fprintf(stderr, "    random %llu 1\n", (unsigned long long)start);
    }
    return report();
}
