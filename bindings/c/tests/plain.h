/* A plain second implementation of the functions of rlp.h, which shares no code with them. */
#ifndef PLAIN_H
#define PLAIN_H

#include "rlp.h"

uint32_t plain_header(const uint8_t *bytes, size_t len, rlp_item *out);
uint32_t plain_split(const uint8_t *bytes, size_t len, rlp_item *out, size_t cap, size_t *count);
uint32_t plain_flatten(const uint8_t *bytes, size_t len, uint32_t max_depth, rlp_item *out, size_t cap, size_t *count);
uint32_t plain_decode_bytes(const uint8_t *bytes, size_t len, bool strict, rlp_item *out);
uint32_t plain_decode_uint(const uint8_t *bytes, size_t len, bool strict, size_t width, rlp_item *out);
uint32_t plain_decode_u64(const uint8_t *bytes, size_t len, bool strict, uint64_t *out);
size_t plain_write_header(bool is_list, size_t payload_len, uint8_t *out);
size_t plain_write_string(const uint8_t *bytes, size_t len, uint8_t *out);
size_t plain_write_u64(uint64_t number, uint8_t *out);
uint32_t plain_encode(const rlp_item *items, size_t items_len, const uint8_t *bytes, size_t len, uint8_t *out,
                      size_t cap, size_t *count);
uint32_t plain_text(const uint8_t *bytes, size_t len, uint8_t *out, size_t cap, size_t *count);

#endif
