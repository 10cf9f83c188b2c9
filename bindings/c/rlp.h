/* The Recursive Length Prefix format of Ethereum. Link librlp.a or librlp.so; neither needs another library.
 *
 * The status that each function returns, and what it leaves in its result parameters, are proved to be as described
 * here, for all bytes, lengths and items. The lists of statuses behind `Status:`, and the ranges of `*count` and
 * `header_len`, follow from what is proved, but no contract states them. By the way they are written, and by no proof,
 * none takes memory, keeps a pointer or has a state; none writes elsewhere than through its result parameters. So calls
 * may run at the same time.
 *
 * A caller owes this, and nothing tests it: `bytes` are `len` readable bytes, `items` are `items_len` readable
 * elements, and `out` are `cap` writable ones. A pointer may be NULL if its length is 0. Result parameters are aligned,
 * and overlap nothing else. Nothing changes the arguments during a call. A `bool` is 0 or 1.
 *
 * All offsets and lengths are in bytes. Each uint32_t that is returned is an rlp_status. */
#ifndef RLP_H
#define RLP_H

#include <stdbool.h>
#include <stddef.h>
#include <stdint.h>

#ifdef __cplusplus
#define RLP_RESTRICT __restrict
extern "C" {
#else
#define RLP_RESTRICT restrict
#endif

/* The result of a call. After RLP_OK the elements of `out` behind the first `*count` are unchanged. After a status
 * other than RLP_OK and RLP_NO_ROOM the result parameters are unchanged, with two exceptions: the elements of `out`
 * then have no meaning if the function finds several items, and rlp_transaction says what it and rlp_header_fields
 * set. */
typedef enum rlp_status {
    RLP_OK = 0,
    RLP_IS_TOO_BIG = 1,                     /* bytes follow the item, or a field or a number is too big */
    RLP_IS_TOO_SHORT = 2,                   /* the bytes end before the item does, or a field is too short */
    RLP_EXPECTED_TO_BE_LIST = 3,            /* a string, or no bytes, in place of a list */
    RLP_EXPECTED_TO_BE_DATA = 4,            /* a list in place of a string */
    RLP_INCORRECT_LIST_LEN = 5,             /* a record of Ethereum has a field too few or too many */
    RLP_DATA_LEN_WITH_ZERO_PREFIX = 6,      /* the length of a string begins with a zero byte */
    RLP_LIST_LEN_WITH_ZERO_PREFIX = 7,      /* the length of a list begins with a zero byte */
    RLP_INVALID_INDIRECTION = 8,            /* there is a shorter encoding, or a number begins with a zero byte */
    RLP_INCONSISTENT_LENGTH_AND_DATA = 9,   /* the bytes end before the string that is read does */
    RLP_INVALID_LENGTH = 10,                /* a header and its string are 2^64 bytes or more */
    RLP_INVALID_SIGNATURE = 11,             /* a number of a signature is out of range */
    RLP_NO_ROOM = 13,                       /* `cap` is less than `*count`, which is what is needed */
    RLP_TOO_DEEP = 14,                      /* lists nest deeper than allowed */
    RLP_BAD_ITEMS = 15,                     /* the items describe no tree, or lie outside the bytes */
    RLP_UNKNOWN_TYPE = 16                   /* a transaction begins no list, and its first byte isn't 1 to 4 */
} rlp_status;

/* The greatest depth of nested lists. A larger `max_depth` counts as this number. */
#define RLP_DEPTH_LIMIT 256

/* An item of some bytes: 32 bytes on a 64-bit machine, without padding. */
typedef struct rlp_item {
    size_t offset;                          /* where its encoding begins */
    size_t header_len;                      /* 0 to 9; 0 for a byte below 0x80, which is its own encoding */
    size_t payload_len;                     /* the payload is at bytes + offset + header_len */
    uint32_t depth;                         /* the number of lists around the item, 0 to RLP_DEPTH_LIMIT */
    uint32_t is_list;                       /* 1 for a list, 0 for a string */
} rlp_item;

/* Finds the item that the bytes begin with. Other bytes may follow it. The item lies within the bytes; its payload
 * isn't read.
 * Status: 0, 2, 6, 7, 8. */
uint32_t rlp_header(const uint8_t *RLP_RESTRICT bytes, size_t len, rlp_item *RLP_RESTRICT out);

/* Returns whether the bytes are the canonical encoding of an item whose lists nest at most `max_depth` deep, and at
 * most RLP_DEPTH_LIMIT: 0 allows only strings, 1 also lists of strings. */
bool rlp_is_canonical(const uint8_t *bytes, size_t len, uint32_t max_depth);

/* Finds the items of the list that the bytes are, at depth 1. It reads only the header of each item. `*count` is the
 * number of items, at most `len`. After RLP_NO_ROOM the elements of `out` have no meaning.
 * Status: 0, 1, 2, 3, 6, 7, 8, 13. */
uint32_t rlp_split(const uint8_t *RLP_RESTRICT bytes, size_t len, rlp_item *RLP_RESTRICT out, size_t cap,
                   size_t *RLP_RESTRICT count);

/* Finds all items of the canonical encoding that the bytes are, each before the items in it. The first is the whole.
 * Otherwise the function does what rlp_split does. The status is RLP_OK or RLP_NO_ROOM if and only if rlp_is_canonical
 * returns true, and otherwise the first fault in the order of the bytes. Status: 0, 1, 2, 6, 7, 8, 13, 14. */
uint32_t rlp_flatten(const uint8_t *RLP_RESTRICT bytes, size_t len, uint32_t max_depth, rlp_item *RLP_RESTRICT out,
                     size_t cap, size_t *RLP_RESTRICT count);

/* Finds the fields of the standalone transaction that the bytes are, as in EIP-2718, at depth 1 and in order; `*count`
 * is the number of fields. `*transaction_type` is 0 for a legacy transaction, which is a list, and otherwise the byte
 * in front of the list: 1 (EIP-2930), 2 (EIP-1559), 3 (EIP-4844) or 4 (EIP-7702). Each field is tested, and in a field
 * that is a list each item. A number has at most 8 or 32 bytes, an address 20 and a hash 32. The parity of the
 * transaction's signature is 0 or 1, and the two numbers after it are from 1 to below the order of secp256k1. In an
 * authorization the parity is any number of at most one byte, and the two numbers any of at most 32 bytes: a block may
 * hold an authorization without a valid signature, which EIP-7702 skips. After RLP_NO_ROOM the elements of `out` have
 * no meaning. After a fault `*count` is the number of the field that has the fault or is missing, counted from 1; after
 * too many fields the number of the first field too many; and 0 after a fault of the whole.
 * Status: 0, 1, 2, 3, 4, 5, 6, 7, 8, 11, 13, 16; after 2 for no bytes, and 16, `*transaction_type` is unchanged. */
uint32_t rlp_transaction(const uint8_t *RLP_RESTRICT bytes, size_t len, uint32_t *RLP_RESTRICT transaction_type,
                         rlp_item *RLP_RESTRICT out, size_t cap, size_t *RLP_RESTRICT count);

/* Finds the fields of the header of a block that the bytes are: 15, or since London 16, Shanghai 17, Cancun 20, Prague
 * 21, and Amsterdam, by drafts, 22, or 23 with the slot's number. The bloom filter has 256 bytes, and the nonce 8.
 * Otherwise the function does what rlp_transaction does.
 * Status: 0, 1, 2, 3, 4, 5, 6, 7, 8, 13. */
uint32_t rlp_header_fields(const uint8_t *RLP_RESTRICT bytes, size_t len, rlp_item *RLP_RESTRICT out, size_t cap,
                           size_t *RLP_RESTRICT count);

/* Finds the string that the bytes begin with, as rlp_header finds an item: the string lies within the bytes, at
 * `offset` 0 and `depth` 0. If `strict` is true, nothing may follow the string: use this for untrusted bytes.
 * Status: 0, 1, 2, 4, 8, 9, 10. */
uint32_t rlp_decode_bytes(const uint8_t *RLP_RESTRICT bytes, size_t len, bool strict, rlp_item *RLP_RESTRICT out);

/* Reads the number below 2^64 that the bytes begin with. `strict` and status as for rlp_decode_bytes. */
uint32_t rlp_decode_u64(const uint8_t *RLP_RESTRICT bytes, size_t len, bool strict, uint64_t *RLP_RESTRICT out);

/* Finds the bytes of the number that the bytes begin with, as rlp_decode_bytes finds a string: big-endian, without
 * leading zeros, and at most `width` of them. The number 0 has no bytes. `strict` and status as for
 * rlp_decode_bytes. */
uint32_t rlp_decode_uint(const uint8_t *RLP_RESTRICT bytes, size_t len, bool strict, size_t width,
                         rlp_item *RLP_RESTRICT out);

/* Writes the header of a payload. The caller writes the payload behind the header: the encodings of a list's items, or
 * a string other than one byte below 0x80. `*count` is the header's length, 1 to 9. After RLP_NO_ROOM `out` is
 * unchanged.
 * Status: 0, 13. */
uint32_t rlp_encode_header(bool is_list, size_t payload_len, uint8_t *RLP_RESTRICT out, size_t cap,
                           size_t *RLP_RESTRICT count);

/* Writes the encoding of a string. `*count` is the length of the encoding. After RLP_NO_ROOM `out` is unchanged.
 * Status: 0, 13; and 10 if the encoding has 2^64 bytes or more, which no string in memory has. */
uint32_t rlp_encode_bytes(const uint8_t *RLP_RESTRICT bytes, size_t len, uint8_t *RLP_RESTRICT out, size_t cap,
                          size_t *RLP_RESTRICT count);

/* Writes the encoding of a number. `*count` is the length of the encoding, 1 to 9. After RLP_NO_ROOM `out` is
 * unchanged.
 * Status: 0, 13. */
uint32_t rlp_encode_u64(uint64_t number, uint8_t *RLP_RESTRICT out, size_t cap, size_t *RLP_RESTRICT count);

/* Writes the encoding of the tree that the items describe, in the order of rlp_flatten: `*count` bytes. The first item
 * has depth 0. Each other item has at least depth 1, and at most the depth of the item before it, or 1 more if the
 * item before it is a list. No list has a depth of RLP_DEPTH_LIMIT or more. Of a list only `depth` and `is_list` are
 * read; `is_list` is 0 for a string, and anything else for a list. A string is the payload that its item points at in
 * `bytes`. After RLP_NO_ROOM `out` is unchanged.
 * Status: 0, 13, 15; and 10 if the encoding has 2^64 bytes or more. */
uint32_t rlp_encode(const rlp_item *RLP_RESTRICT items, size_t items_len, const uint8_t *RLP_RESTRICT bytes, size_t len,
                    uint8_t *RLP_RESTRICT out, size_t cap, size_t *RLP_RESTRICT count);

/* Writes the text of the item that the bytes begin with, in ASCII and without a zero at the end: `*count` bytes. The
 * text is `"0x.."` for a string, `[.., ..]` for a list of the items that its payload begins with, `null` for no bytes,
 * and the name of the fault for other bytes. After RLP_NO_ROOM `out` is unchanged.
 * Status: 0, 13; and 14 if lists nest deeper than RLP_DEPTH_LIMIT. */
uint32_t rlp_text(const uint8_t *RLP_RESTRICT bytes, size_t len, uint8_t *RLP_RESTRICT out, size_t cap,
                  size_t *RLP_RESTRICT count);

#ifdef __cplusplus
}
#endif
#endif
