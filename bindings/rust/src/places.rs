//! Where items are in bytes.

use crate::error::{answer, DecoderError};
use crate::fill::fill;
use crate::item::Item;
use crate::raw;

/// No function goes deeper into lists that hold lists, whatever the caller allows.
pub const DEPTH_LIMIT: u32 = 256;

/// Finds the item that the bytes begin with. Others may follow it.
///
/// ```
/// let item = rlp_proved::header(&[0xc2, 5, 6, 7])?;
/// assert_eq!((item.is_list(), item.header_len, item.payload_len), (true, 1, 2));
/// # Ok::<(), rlp_proved::DecoderError>(())
/// ```
pub fn header(bytes: &[u8]) -> Result<Item, DecoderError> {
    let mut out = Item::default();
    // SAFETY: the pointer and the length are those of a slice, and `out` is another value.
    answer(unsafe { raw::rlp_header(bytes.as_ptr(), bytes.len(), &mut out) })?;
    Ok(out)
}

/// Returns whether the bytes are the canonical encoding of an item whose lists nest at most
/// `max_depth` deep, and at most [`DEPTH_LIMIT`].
///
/// ```
/// assert!(rlp_proved::is_canonical(&[0xc2, 0xc1, 5], 2));
/// assert!(!rlp_proved::is_canonical(&[0xc2, 0xc1, 5], 1));
/// ```
pub fn is_canonical(bytes: &[u8], max_depth: u32) -> bool {
    // SAFETY: the pointer and the length are those of a slice.
    unsafe { raw::rlp_is_canonical(bytes.as_ptr(), bytes.len(), max_depth) }
}

/// Puts the items of the list that the bytes are at the end of a vector, without a look into them.
///
/// ```
/// let bytes = b"\xc8\x83cat\x83dog";
/// let mut items = Vec::new();
/// rlp_proved::split_into(bytes, &mut items)?;
/// assert_eq!(items[1].payload(bytes), b"dog");
/// # Ok::<(), rlp_proved::DecoderError>(())
/// ```
pub fn split_into(bytes: &[u8], out: &mut Vec<Item>) -> Result<(), DecoderError> {
    // SAFETY: the pointer and the length are those of a slice, and the room is the vector's own.
    unsafe {
        fill(out, |at, cap, count| {
            raw::rlp_split(bytes.as_ptr(), bytes.len(), at, cap, count)
        })
    }
}

/// Puts all items of the canonical encoding that the bytes are at the end of a vector, each before
/// the items in it.
///
/// ```
/// let mut items = Vec::new();
/// rlp_proved::flatten_into(&[0xc3, 5, 0xc1, 6], 9, &mut items)?;
/// let depths: Vec<u32> = items.iter().map(|item| item.depth).collect();
/// assert_eq!(depths, [0, 1, 1, 2]);
/// # Ok::<(), rlp_proved::DecoderError>(())
/// ```
pub fn flatten_into(bytes: &[u8], max_depth: u32, out: &mut Vec<Item>) -> Result<(), DecoderError> {
    // SAFETY: as for `split_into`.
    unsafe {
        fill(out, |at, cap, count| {
            raw::rlp_flatten(bytes.as_ptr(), bytes.len(), max_depth, at, cap, count)
        })
    }
}
