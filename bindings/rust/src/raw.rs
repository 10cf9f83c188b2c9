//! The functions of `rlp.h`. `bindings/compare` compares them with the library.

use crate::item::Item;

pub const RLP_OK: u32 = 0;
pub const RLP_NO_ROOM: u32 = 13;

extern "C" {
    pub fn rlp_header(bytes: *const u8, len: usize, out: *mut Item) -> u32;
    pub fn rlp_is_canonical(bytes: *const u8, len: usize, max_depth: u32) -> bool;
    pub fn rlp_split(
        bytes: *const u8,
        len: usize,
        out: *mut Item,
        cap: usize,
        count: *mut usize,
    ) -> u32;
    pub fn rlp_flatten(
        bytes: *const u8,
        len: usize,
        max_depth: u32,
        out: *mut Item,
        cap: usize,
        count: *mut usize,
    ) -> u32;
    pub fn rlp_transaction(
        bytes: *const u8,
        len: usize,
        transaction_type: *mut u32,
        out: *mut Item,
        cap: usize,
        count: *mut usize,
    ) -> u32;
    pub fn rlp_header_fields(
        bytes: *const u8,
        len: usize,
        out: *mut Item,
        cap: usize,
        count: *mut usize,
    ) -> u32;
    pub fn rlp_decode_bytes(bytes: *const u8, len: usize, strict: bool, out: *mut Item) -> u32;
    pub fn rlp_decode_u64(bytes: *const u8, len: usize, strict: bool, out: *mut u64) -> u32;
    pub fn rlp_decode_uint(
        bytes: *const u8,
        len: usize,
        strict: bool,
        width: usize,
        out: *mut Item,
    ) -> u32;
    pub fn rlp_encode_header(
        is_list: bool,
        payload_len: usize,
        out: *mut u8,
        cap: usize,
        count: *mut usize,
    ) -> u32;
    pub fn rlp_encode_bytes(
        bytes: *const u8,
        len: usize,
        out: *mut u8,
        cap: usize,
        count: *mut usize,
    ) -> u32;
    pub fn rlp_encode_u64(number: u64, out: *mut u8, cap: usize, count: *mut usize) -> u32;
    pub fn rlp_encode(
        items: *const Item,
        items_len: usize,
        bytes: *const u8,
        len: usize,
        out: *mut u8,
        cap: usize,
        count: *mut usize,
    ) -> u32;
    pub fn rlp_text(
        bytes: *const u8,
        len: usize,
        out: *mut u8,
        cap: usize,
        count: *mut usize,
    ) -> u32;
}
