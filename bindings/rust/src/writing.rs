//! Encodings at the end of a vector.

use crate::error::DecoderError;
use crate::fill::fill;
use crate::item::Item;
use crate::raw;
use crate::stream::{Encodable, RlpStream};

/// Appends the header of a payload. The payload follows it: the encodings of a list's items, or a
/// string other than one byte below 0x80.
///
/// ```
/// let mut out = Vec::new();
/// rlp_proved::append_header(true, 1000, &mut out);
/// assert_eq!(out, [0xf9, 3, 0xe8]);
/// ```
pub fn append_header(is_list: bool, payload_len: usize, out: &mut Vec<u8>) {
    // SAFETY: the room is the vector's own.
    let filled = unsafe {
        fill(out, |at, cap, count| {
            raw::rlp_encode_header(is_list, payload_len, at, cap, count)
        })
    };
    filled.expect("a header has no fault");
}

/// Appends the encoding of a byte string.
///
/// ```
/// let mut out = vec![0xc4];
/// rlp_proved::append_bytes(b"cat", &mut out);
/// assert_eq!(out, b"\xc4\x83cat");
/// ```
pub fn append_bytes(bytes: &[u8], out: &mut Vec<u8>) {
    // SAFETY: the pointer and the length are those of a slice, and the room is the vector's own.
    let filled = unsafe {
        fill(out, |at, cap, count| {
            raw::rlp_encode_bytes(bytes.as_ptr(), bytes.len(), at, cap, count)
        })
    };
    filled.expect("no slice has 2^64 bytes");
}

/// Appends the encoding of a number.
///
/// ```
/// let mut out = Vec::new();
/// rlp_proved::append_u64(1000, &mut out);
/// assert_eq!(out, [0x82, 3, 0xe8]);
/// ```
pub fn append_u64(number: u64, out: &mut Vec<u8>) {
    // SAFETY: the room is the vector's own.
    let filled = unsafe {
        fill(out, |at, cap, count| {
            raw::rlp_encode_u64(number, at, cap, count)
        })
    };
    filled.expect("a number has no fault");
}

/// Appends the encoding of the tree that the items describe, in the order of
/// [`flatten_into`](crate::flatten_into). The strings are parts of the bytes.
///
/// ```
/// use rlp_proved::{encode_into, DecoderError, Item};
/// let mut out = Vec::new();
/// encode_into(&[Item::list(0), Item::string(1, 0, 3)], b"catdog", &mut out)?;
/// assert_eq!(out, b"\xc4\x83cat");
/// assert_eq!(encode_into(&[Item::list(1)], b"", &mut out), Err(DecoderError::RlpBadItems));
/// # Ok::<(), DecoderError>(())
/// ```
pub fn encode_into(items: &[Item], bytes: &[u8], out: &mut Vec<u8>) -> Result<(), DecoderError> {
    let (items_at, bytes_at) = (items.as_ptr(), bytes.as_ptr());
    // SAFETY: the pointers and lengths are those of slices, and the room is the vector's own.
    unsafe {
        fill(out, |at, cap, count| {
            raw::rlp_encode(items_at, items.len(), bytes_at, bytes.len(), at, cap, count)
        })
    }
}

/// Returns the text of the item that the bytes begin with: `"0x.."` for a string, `[.., ..]` for a
/// list of the items that its payload begins with, `null` for no bytes, and the name of the fault
/// for other bytes. Fails for more than [`DEPTH_LIMIT`](crate::DEPTH_LIMIT) lists, one in the
/// other.
///
/// ```
/// assert_eq!(rlp_proved::text(b"\xc4\x83cat")?, r#"["0x636174"]"#);
/// assert_eq!(rlp_proved::text(b"\xc4\x83ca")?, "RlpIsTooShort");
/// # Ok::<(), rlp_proved::DecoderError>(())
/// ```
pub fn text(bytes: &[u8]) -> Result<String, DecoderError> {
    let mut out = Vec::new();
    // SAFETY: the pointer and the length are those of a slice, and the room is the vector's own.
    unsafe {
        fill(&mut out, |at, cap, count| {
            raw::rlp_text(bytes.as_ptr(), bytes.len(), at, cap, count)
        })?
    };
    Ok(String::from_utf8(out).expect("the text is ASCII"))
}

/// Returns the encoding of a value.
///
/// ```
/// assert_eq!(rlp_proved::encode(&1000u16), [0x82, 3, 0xe8]);
/// ```
pub fn encode<E: Encodable + ?Sized>(value: &E) -> Vec<u8> {
    let mut stream = RlpStream::new();
    stream.append(value);
    stream.out().expect("a value appends one item")
}
