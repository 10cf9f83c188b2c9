//! Values that are read from one string.

use crate::error::{answer, DecoderError};
use crate::item::Item;
use crate::raw;

/// Whether bytes may follow the item that is read. Use `Strict` for untrusted bytes.
#[derive(Clone, Copy, Debug, PartialEq, Eq)]
pub enum Mode {
    Lenient,
    Strict,
}

/// Reads the byte string that the bytes begin with.
///
/// ```
/// use rlp_proved::{decode_bytes, DecoderError, Mode};
/// assert_eq!(decode_bytes(b"\x83cat!", Mode::Lenient), Ok(b"cat".as_slice()));
/// assert_eq!(decode_bytes(b"\x83cat!", Mode::Strict), Err(DecoderError::RlpIsTooBig));
/// ```
pub fn decode_bytes(bytes: &[u8], mode: Mode) -> Result<&[u8], DecoderError> {
    let mut out = Item::default();
    // SAFETY: the pointer and the length are those of a slice, and `out` is another value.
    answer(unsafe {
        raw::rlp_decode_bytes(bytes.as_ptr(), bytes.len(), mode == Mode::Strict, &mut out)
    })?;
    Ok(out.payload(bytes))
}

/// Reads the number that the bytes begin with.
///
/// ```
/// use rlp_proved::{decode_u64, DecoderError, Mode};
/// assert_eq!(decode_u64(&[0x82, 1, 0], Mode::Strict), Ok(256));
/// assert_eq!(decode_u64(&[0x82, 0, 1], Mode::Strict), Err(DecoderError::RlpInvalidIndirection));
/// ```
pub fn decode_u64(bytes: &[u8], mode: Mode) -> Result<u64, DecoderError> {
    let mut out = 0;
    // SAFETY: as for `decode_bytes`.
    answer(unsafe {
        raw::rlp_decode_u64(bytes.as_ptr(), bytes.len(), mode == Mode::Strict, &mut out)
    })?;
    Ok(out)
}

/// Reads the digits to the base 256 of the number that the bytes begin with: the greatest first,
/// without a zero in front and at most `width` of them.
///
/// ```
/// use rlp_proved::{decode_uint, DecoderError, Mode};
/// assert_eq!(decode_uint(&[0x82, 1, 0], Mode::Strict, 32), Ok([1, 0].as_slice()));
/// assert_eq!(decode_uint(&[0x82, 1, 0], Mode::Strict, 1), Err(DecoderError::RlpIsTooBig));
/// ```
pub fn decode_uint(bytes: &[u8], mode: Mode, width: usize) -> Result<&[u8], DecoderError> {
    let mut out = Item::default();
    // SAFETY: as for `decode_bytes`.
    answer(unsafe {
        raw::rlp_decode_uint(
            bytes.as_ptr(),
            bytes.len(),
            mode == Mode::Strict,
            width,
            &mut out,
        )
    })?;
    Ok(out.payload(bytes))
}

/// A value that is read from one string.
pub trait Decodable<'a>: Sized {
    /// Reads the value that the bytes begin with.
    ///
    /// ```
    /// use rlp_proved::{Decodable, Mode};
    /// assert_eq!(u16::decode(&[0x82, 1, 0], Mode::Strict), Ok(256));
    /// ```
    fn decode(bytes: &'a [u8], mode: Mode) -> Result<Self, DecoderError>;
}

impl<'a> Decodable<'a> for &'a [u8] {
    fn decode(bytes: &'a [u8], mode: Mode) -> Result<Self, DecoderError> {
        decode_bytes(bytes, mode)
    }
}

impl Decodable<'_> for Vec<u8> {
    fn decode(bytes: &[u8], mode: Mode) -> Result<Self, DecoderError> {
        decode_bytes(bytes, mode).map(<[u8]>::to_vec)
    }
}

macro_rules! decodable_number {
    ($($number:ty),*) => {$(
        impl Decodable<'_> for $number {
            fn decode(bytes: &[u8], mode: Mode) -> Result<Self, DecoderError> {
                let digits = decode_uint(bytes, mode, size_of::<$number>())?;
                let mut all = [0; size_of::<$number>()];
                all[size_of::<$number>() - digits.len()..].copy_from_slice(digits);
                Ok(<$number>::from_be_bytes(all))
            }
        }
    )*};
}

decodable_number!(u8, u16, u32, u64, u128, usize);

/// Reads the value that the bytes begin with. Others may follow it.
///
/// ```
/// assert_eq!(rlp_proved::decode::<&[u8]>(b"\x83cat!"), Ok(b"cat".as_slice()));
/// ```
pub fn decode<'a, T: Decodable<'a>>(bytes: &'a [u8]) -> Result<T, DecoderError> {
    T::decode(bytes, Mode::Lenient)
}

/// Reads the value whose whole encoding the bytes are.
///
/// ```
/// use rlp_proved::DecoderError;
/// assert_eq!(rlp_proved::decode_strict::<u8>(&[0x81, 0xff]), Ok(255));
/// assert_eq!(rlp_proved::decode_strict::<u8>(&[5, 6]), Err(DecoderError::RlpIsTooBig));
/// ```
pub fn decode_strict<'a, T: Decodable<'a>>(bytes: &'a [u8]) -> Result<T, DecoderError> {
    T::decode(bytes, Mode::Strict)
}
