#include <rlp.h>
#include <stdio.h>

int main(void) {
    rlp_item tree[] = {{.is_list = 1}, {.payload_len = 3, .depth = 1}, {.offset = 3, .payload_len = 2, .depth = 1}};
    uint8_t bytes[64], text[64];
    size_t len, count, letters;
    if (rlp_encode(tree, 3, (const uint8_t *)"cat\x03\xe8", 5, bytes, 64, &len) != RLP_OK) return 1;
    rlp_item items[8];
    if (rlp_flatten(bytes, len, 9, items, 8, &count) != RLP_OK) return 1;
    for (size_t i = 1; i < count; i++) {
        rlp_text(bytes + items[i].offset, len - items[i].offset, text, 64, &letters);
        printf("%.*s at %zu\n", (int)letters, text, items[i].offset);
    }
    bool refused = rlp_flatten((const uint8_t *)"\xc2\x81\x05", 3, 9, items, 8, &count) == RLP_INVALID_INDIRECTION;
    printf("%s\n", refused ? "RlpInvalidIndirection" : "another status");
}
