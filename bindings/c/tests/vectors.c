/* vectors FILE: each row's bytes are the encoding of the tree that the row states, or have the fault that it names. */
#include "check.h"

#include <stdio.h>
#include <stdlib.h>
#include <string.h>

#define LONGEST 100000

static const char *const NAMES[] = {
    [RLP_IS_TOO_BIG] = "RlpIsTooBig", [RLP_IS_TOO_SHORT] = "RlpIsTooShort",
    [RLP_DATA_LEN_WITH_ZERO_PREFIX] = "RlpDataLenWithZeroPrefix",
    [RLP_LIST_LEN_WITH_ZERO_PREFIX] = "RlpListLenWithZeroPrefix",
    [RLP_INVALID_INDIRECTION] = "RlpInvalidIndirection", [RLP_TOO_DEEP] = "RlpTooDeep",
};

/* The text of a tree: strings as digits, lists in brackets. */
static void print_tree(const uint8_t *bytes, const rlp_item *items, size_t count, char *out) {
    size_t open = 0;
    for (size_t i = 0; i < count; i++) {
        const rlp_item *item = &items[i];
        while (open > item->depth) *out++ = ']', open--;
        if (i > 0 && out[-1] != '[') *out++ = ',', *out++ = ' ';
        const uint8_t *payload = bytes + item->offset + item->header_len;
        if (item->is_list) *out++ = '[', open++;
        else out += sprintf(out, "\"0x");
        for (size_t at = 0; !item->is_list && at < item->payload_len; at++) out += sprintf(out, "%02x", payload[at]);
        if (!item->is_list) *out++ = '"';
    }
    while (open-- > 0) *out++ = ']';
    *out = 0;
}

static bool has_fault(const char *row, uint32_t status) {
    const char *name = status < sizeof NAMES / sizeof *NAMES && NAMES[status] ? NAMES[status] : "another status";
    return strncmp(row, name, strlen(name)) == 0 && row[strlen(name)] == ' ';
}

/* The row of a fault has an `at`, and that of a tree has none. */
static bool is_answered(const uint8_t *bytes, size_t len, const char *row) {
    static char text[LONGEST];
    size_t count = 0, written = 0;
    uint32_t status = rlp_flatten(bytes, len, RLP_DEPTH_LIMIT, NULL, 0, &count);
    if (strstr(row, " at ")) return has_fault(row, status) && !rlp_is_canonical(bytes, len, RLP_DEPTH_LIMIT);
    rlp_item *items = room_for(ITEMS, count * sizeof *items);
    if (status != RLP_NO_ROOM || !rlp_is_canonical(bytes, len, RLP_DEPTH_LIMIT)) return false;
    if (rlp_flatten(bytes, len, RLP_DEPTH_LIMIT, items, count, &count) != RLP_OK) return false;
    print_tree(bytes, items, count, text);
    uint8_t *same = room_for(OUTPUT, strlen(text));
    if (rlp_text(bytes, len, same, strlen(text), &written) != RLP_OK) return false;
    if (written != strlen(text) || memcmp(same, text, written) != 0) return false;
    uint8_t *out = room_for(OUTPUT, len);
    if (rlp_encode(items, count, bytes, len, out, len, &written) != RLP_OK) return false;
    return strcmp(text, row) == 0 && written == len && memcmp(out, bytes, len) == 0;
}

static uint8_t *bytes_of(const char *digits, size_t letters) {
    uint8_t *bytes = room_for(INPUT, letters / 2);
    for (size_t i = 0; i < letters / 2; i++) {
        char byte[3] = {digits[2 * i], digits[2 * i + 1], 0};
        bytes[i] = (uint8_t)strtoul(byte, NULL, 16);
    }
    return bytes;
}

int main(int argc, char **argv) {
    static char line[LONGEST];
    FILE *file = argc == 2 ? fopen(argv[1], "r") : NULL;
    if (file == NULL) return 2;
    while (fgets(line, sizeof line, file)) {
        char *row = strstr(line, " => ");
        if (line[0] == '#' || row == NULL) continue;
        line[strcspn(line, "\n")] = 0;
        size_t letters = (size_t)(row - line);
        if (!CHECK(is_answered(bytes_of(line, letters), letters / 2, row + 4))) fprintf(stderr, "    %.200s\n", line);
    }
    fclose(file);
    return report();
}
