/* records FILE: the fields of each row's bytes are as many as the row states, one behind the other, or one has the fault
 * that it names. */
#include "check.h"

#include <stdio.h>
#include <stdlib.h>
#include <string.h>

#define LONGEST 100000

static const char *const NAMES[] = {
    [RLP_IS_TOO_BIG] = "RlpIsTooBig", [RLP_IS_TOO_SHORT] = "RlpIsTooShort",
    [RLP_EXPECTED_TO_BE_LIST] = "RlpExpectedToBeList", [RLP_EXPECTED_TO_BE_DATA] = "RlpExpectedToBeData",
    [RLP_INCORRECT_LIST_LEN] = "RlpIncorrectListLen", [RLP_DATA_LEN_WITH_ZERO_PREFIX] = "RlpDataLenWithZeroPrefix",
    [RLP_LIST_LEN_WITH_ZERO_PREFIX] = "RlpListLenWithZeroPrefix", [RLP_INVALID_INDIRECTION] = "RlpInvalidIndirection",
    [RLP_INVALID_SIGNATURE] = "RlpInvalidSignature", [RLP_UNKNOWN_TYPE] = "RlpUnknownType",
};

static uint8_t *bytes_of(const char *digits, size_t letters) {
    uint8_t *bytes = room_for(INPUT, letters / 2);
    for (size_t i = 0; i < letters / 2; i++) {
        char byte[3] = {digits[2 * i], digits[2 * i + 1], 0};
        bytes[i] = (uint8_t)strtoul(byte, NULL, 16);
    }
    return bytes;
}

static uint32_t call(bool is_header, const uint8_t *bytes, size_t len, uint32_t *type, rlp_item *out, size_t cap, size_t *count) {
    if (is_header) return rlp_header_fields(bytes, len, out, cap, count);
    return rlp_transaction(bytes, len, type, out, cap, count);
}

/* Whether the items are those of the list, which begins at a place. */
static bool are_items(const uint8_t *bytes, size_t len, size_t place, const rlp_item *items, size_t count) {
    rlp_item item;
    if (rlp_header(bytes + place, len - place, &item) != RLP_OK) return false;
    place += item.header_len;
    for (size_t i = 0; i < count; i++) {
        if (rlp_header(bytes + place, len - place, &item) != RLP_OK) return false;
        item.offset = place;
        item.depth = 1;
        if (!same_items(&item, &items[i], 1)) return false;
        place += item.header_len + item.payload_len;
    }
    return place == len;
}

static bool is_answered(bool is_header, const uint8_t *bytes, size_t len, const char *row) {
    char text[99];
    size_t count = 77, again = 77;
    uint32_t type = 77, status = call(is_header, bytes, len, &type, NULL, 0, &count);
    if (status != RLP_NO_ROOM) {
        snprintf(text, sizeof text, "%s at %zu", status < sizeof NAMES / sizeof *NAMES && NAMES[status] ? NAMES[status] : "another status", count);
        rlp_item *items = room_for(ITEMS, 23 * sizeof *items);
        return strcmp(text, row) == 0 && call(is_header, bytes, len, &type, items, 23, &again) == status && again == count;
    }
    if (is_header) snprintf(text, sizeof text, "%zu fields", count);
    else snprintf(text, sizeof text, "type %u, %zu fields", (unsigned)type, count);
    rlp_item *items = room_for(ITEMS, (count - 1) * sizeof *items);
    if (call(is_header, bytes, len, &type, items, count - 1, &again) != RLP_NO_ROOM || again != count) return false;
    items = items_for(count, 0);
    if (call(is_header, bytes, len, &type, items, count, &again) != RLP_OK || again != count) return false;
    if (!are_items(bytes, len, bytes[0] < 0xc0, items, count)) return false;
    items = items_for(count, 2);
    if (call(is_header, bytes, len, &type, items, count + 2, &again) != RLP_OK || again != count || !are_marked(items + count, 2)) return false;
    return strcmp(text, row) == 0 && are_items(bytes, len, bytes[0] < 0xc0, items, count);
}

int main(int argc, char **argv) {
    static char line[LONGEST];
    FILE *file = argc == 2 ? fopen(argv[1], "r") : NULL;
    if (file == NULL) return 2;
    while (fgets(line, sizeof line, file)) {
        char *row = strstr(line, " => "), *digits = strchr(line, ' ') + 1;
        if (line[0] == '#' || row == NULL) continue;
        line[strcspn(line, "\n")] = 0;
        size_t letters = row > digits ? (size_t)(row - digits) : 0;
        bool is_header = line[0] == 'h';
        if (!CHECK(is_answered(is_header, bytes_of(digits, letters), letters / 2, row + 4))) fprintf(stderr, "    %.200s\n", line);
    }
    fclose(file);
    size_t count = 77;
    uint32_t type = 77;
    CHECK(rlp_transaction(NULL, 0, &type, NULL, 0, &count) == RLP_IS_TOO_SHORT && type == 77 && count == 0);
    CHECK(rlp_header_fields(NULL, 0, NULL, 0, &count) == RLP_EXPECTED_TO_BE_LIST && count == 0);
    return report();
}
