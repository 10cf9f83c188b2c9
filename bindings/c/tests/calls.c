/* Each status, no bytes at NULL, and the borders of depth, width and room. */
#include "check.h"

#include <string.h>

#define BYTES(text) (const uint8_t *)(text), sizeof(text) - 1

static void each_status(void) {
    rlp_item item, items[4], outside = {.offset = 5, .payload_len = 1};
    uint64_t number;
    size_t count;
    uint8_t out[4];
    CHECK(rlp_header(BYTES("\xc0\x05"), &item) == RLP_OK);
    CHECK(rlp_flatten(BYTES("\xc0\x05"), 1, items, 4, &count) == RLP_IS_TOO_BIG);
    CHECK(rlp_decode_uint(BYTES("\x82\x01\x02"), true, 1, &item) == RLP_IS_TOO_BIG);
    CHECK(rlp_header(BYTES("\x82\x01"), &item) == RLP_IS_TOO_SHORT);
    CHECK(rlp_split(BYTES("\x05"), items, 4, &count) == RLP_EXPECTED_TO_BE_LIST);
    CHECK(rlp_decode_u64(BYTES("\xc0"), true, &number) == RLP_EXPECTED_TO_BE_DATA);
    CHECK(rlp_header(BYTES("\xb8\x00"), &item) == RLP_DATA_LEN_WITH_ZERO_PREFIX);
    CHECK(rlp_header(BYTES("\xf8\x00"), &item) == RLP_LIST_LEN_WITH_ZERO_PREFIX);
    CHECK(rlp_decode_bytes(BYTES("\x81\x05"), true, &item) == RLP_INVALID_INDIRECTION);
    CHECK(rlp_decode_u64(BYTES("\x82\x00\x05"), true, &number) == RLP_INVALID_INDIRECTION);
    CHECK(rlp_decode_bytes(BYTES("\x82\x05"), true, &item) == RLP_INCONSISTENT_LENGTH_AND_DATA);
    CHECK(rlp_decode_bytes(BYTES("\xbf\xff\xff\xff\xff\xff\xff\xff\xff"), true, &item) == RLP_INVALID_LENGTH);
    CHECK(rlp_encode_u64(1000, out, 2, &count) == RLP_NO_ROOM && count == 3);
    CHECK(rlp_flatten(BYTES("\xc1\xc0"), 1, items, 4, &count) == RLP_TOO_DEEP);
    CHECK(rlp_encode(&outside, 1, BYTES("cat"), out, 4, &count) == RLP_BAD_ITEMS);
}

static void null_and_nothing(void) {
    rlp_item item, list = {.is_list = 1};
    uint64_t number = 0;
    size_t count = 77;
    uint8_t out[4];
    CHECK(rlp_header(NULL, 0, &item) == RLP_IS_TOO_SHORT);
    CHECK(!rlp_is_canonical(NULL, 0, RLP_DEPTH_LIMIT));
    CHECK(rlp_split(NULL, 0, NULL, 0, &count) == RLP_EXPECTED_TO_BE_LIST && count == 77);
    CHECK(rlp_split(BYTES("\xc0"), NULL, 0, &count) == RLP_OK && count == 0);
    CHECK(rlp_split(BYTES("\xc2\x05\x06"), NULL, 0, &count) == RLP_NO_ROOM && count == 2);
    CHECK(rlp_flatten(NULL, 0, 9, NULL, 0, &count) == RLP_IS_TOO_SHORT && count == 2);
    CHECK(rlp_flatten(BYTES("\xc2\x05\x06"), 9, NULL, 0, &count) == RLP_NO_ROOM && count == 3);
    CHECK(rlp_decode_bytes(NULL, 0, true, &item) == RLP_IS_TOO_SHORT);
    CHECK(rlp_decode_u64(NULL, 0, false, &number) == RLP_IS_TOO_SHORT);
    CHECK(rlp_decode_uint(NULL, 0, true, 32, &item) == RLP_IS_TOO_SHORT);
    CHECK(rlp_encode_header(true, 0, NULL, 0, &count) == RLP_NO_ROOM && count == 1);
    CHECK(rlp_encode_bytes(NULL, 0, NULL, 0, &count) == RLP_NO_ROOM && count == 1);
    CHECK(rlp_encode_bytes(NULL, 0, out, 4, &count) == RLP_OK && count == 1 && out[0] == 0x80);
    CHECK(rlp_encode_u64(0, NULL, 0, &count) == RLP_NO_ROOM && count == 1);
    CHECK(rlp_encode(NULL, 0, NULL, 0, NULL, 0, &count) == RLP_BAD_ITEMS);
    CHECK(rlp_text(NULL, 0, NULL, 0, &count) == RLP_NO_ROOM && count == 4);
    CHECK(rlp_text(NULL, 0, out, 4, &count) == RLP_OK && memcmp(out, "null", 4) == 0);
    CHECK(rlp_encode(&list, 1, NULL, 0, NULL, 0, &count) == RLP_NO_ROOM && count == 1);
    CHECK(rlp_encode(&list, 1, NULL, 0, out, 4, &count) == RLP_OK && count == 1 && out[0] == 0xc0);
}

/* The encoding of so many lists, one in the other, is written from its end. */
static size_t nested(uint8_t *end, size_t lists) {
    size_t len = 0, count;
    for (uint8_t header[9]; lists-- > 0; len += count) {
        rlp_encode_header(true, len, header, sizeof header, &count);
        memcpy(end - len - count, header, count);
    }
    return len;
}

static void depths(void) {
    static uint8_t room[4096], out[4096];
    static rlp_item items[300];
    for (uint32_t lists = 1; lists < 300; lists++) {
        uint8_t *end = room + sizeof room;
        size_t len = nested(end, lists), count = 0, written = 0;
        bool fits = lists <= RLP_DEPTH_LIMIT;
        CHECK(rlp_is_canonical(end - len, len, UINT32_MAX) == fits);
        CHECK(rlp_is_canonical(end - len, len, lists) == fits);
        CHECK(!rlp_is_canonical(end - len, len, lists - 1));
        CHECK(rlp_flatten(end - len, len, UINT32_MAX, items, 300, &count) == (fits ? RLP_OK : RLP_TOO_DEEP));
        CHECK(rlp_text(end - len, len, out, sizeof out, &written) == (fits ? RLP_OK : RLP_TOO_DEEP));
        CHECK(written == (fits ? 2 * lists : 0));
        for (uint32_t depth = 0; depth < lists; depth++) items[depth] = (rlp_item){.depth = depth, .is_list = 1};
        count = 77;
        CHECK(rlp_encode(items, lists, NULL, 0, out, sizeof out, &count) == (fits ? RLP_OK : RLP_BAD_ITEMS));
        CHECK(count == (fits ? len : 77));
        if (!fits) continue;
        CHECK(rlp_flatten(end - len, len, lists, items, lists, &count) == RLP_OK);
        CHECK(count == lists && items[lists - 1].depth == lists - 1);
        CHECK(rlp_encode(items, count, NULL, 0, out, len, &written) == RLP_OK);
        CHECK(written == len && memcmp(out, end - len, len) == 0);
    }
}

/* All inputs of up to two bytes: no more than one item begins with them, and strict reading agrees with the walk. */
static void two_bytes(void) {
    for (unsigned both = 0; both < 0x10000; both++) {
        const uint8_t *bytes = copied(INPUT, (uint8_t[]){(uint8_t)(both >> 8), (uint8_t)both}, 2);
        rlp_item item, whole;
        size_t count;
        bool is_string = rlp_decode_bytes(bytes, 2, true, &item) == RLP_OK;
        bool is_item = rlp_flatten(bytes, 2, 1, &whole, 1, &count) == RLP_OK;
        bool is_written = (both >> 8) == 0x81 && (both & 0xff) >= 0x80;
        if (!CHECK(is_string == is_written && is_item == is_written)) return;
    }
}

/* The row that a string is found with is the one by its header, and elements behind the items stay. */
static void rows(void) {
    rlp_item row = {1, 2, 3, 4, 5}, cat = {0, 1, 3, 0, 0}, five = {0, 0, 1, 0, 0}, none = {0, 1, 0, 0, 0}, *items;
    size_t count;
    CHECK(rlp_decode_bytes(BYTES("\x83" "cat"), true, &row) == RLP_OK && same_items(&row, &cat, 1));
    CHECK(rlp_decode_bytes(BYTES("\x83" "cat" "\x05"), false, &row) == RLP_OK && same_items(&row, &cat, 1));
    CHECK(rlp_decode_uint(BYTES("\x83" "cat"), true, 3, &row) == RLP_OK && same_items(&row, &cat, 1));
    CHECK(rlp_decode_bytes(BYTES("\x80"), true, &row) == RLP_OK && same_items(&row, &none, 1));
    CHECK(rlp_decode_uint(BYTES("\x80"), true, 0, &row) == RLP_OK && same_items(&row, &none, 1));
    CHECK(rlp_decode_uint(BYTES("\x05"), true, 1, &row) == RLP_OK && same_items(&row, &five, 1));
    CHECK(rlp_decode_bytes(BYTES("\x05"), true, &row) == RLP_OK && same_items(&row, &five, 1));
    CHECK(rlp_decode_bytes(BYTES("\xc0"), true, &row) == RLP_EXPECTED_TO_BE_DATA && same_items(&row, &five, 1));
    items = items_for(0, 2);
    CHECK(rlp_split(BYTES("\xc0"), items, 2, &count) == RLP_OK && count == 0 && are_marked(items, 2));
    items = items_for(1, 1);
    CHECK(rlp_split(BYTES("\xc1\x05"), items, 2, &count) == RLP_OK && count == 1 && are_marked(items + 1, 1));
    items = items_for(2, 3);
    CHECK(rlp_flatten(BYTES("\xc1\x05"), 1, items, 5, &count) == RLP_OK && count == 2 && are_marked(items + 2, 3));
}

int main(void) {
    each_status();
    rows();
    null_and_nothing();
    depths();
    two_bytes();
    return report();
}
