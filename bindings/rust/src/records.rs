//! The fields of Ethereum's transactions and headers.

use crate::error::DecoderError;
use crate::fill::fill;
use crate::item::Item;
use crate::raw;
use std::cell::Cell;
use std::error::Error;
use std::fmt;

/// Why bytes aren't a record, and the number of the field that has the fault: 1 for the first, and
/// 0 if the whole has it.
#[derive(Clone, Copy, Debug, PartialEq, Eq, Hash)]
pub struct FieldError {
    pub fault: DecoderError,
    pub field: usize,
}

impl fmt::Display for FieldError {
    fn fmt(&self, f: &mut fmt::Formatter<'_>) -> fmt::Result {
        write!(f, "{} at {}", self.fault, self.field)
    }
}

impl Error for FieldError {}

/// Puts the fields of the standalone transaction that the bytes are, as in EIP-2718, at the end
/// of a vector. Returns its type, which is 0 for a legacy transaction.
///
/// ```
/// let bytes = [0x02, 0xcc, 1, 0x80, 0x80, 0x80, 0x80, 0x80, 0x80, 0x80, 0xc0, 1, 5, 6];
/// let mut fields = Vec::new();
/// assert_eq!(rlp_proved::transaction_into(&bytes, &mut fields)?, 2);
/// assert_eq!(fields[0].payload(&bytes), [1]);
/// # Ok::<(), rlp_proved::FieldError>(())
/// ```
pub fn transaction_into(bytes: &[u8], out: &mut Vec<Item>) -> Result<u32, FieldError> {
    let transaction_type = Cell::new(0);
    fill_fields(out, |at, cap, count| {
        // SAFETY: the pointer and the length are those of a slice, and the room is the vector's.
        unsafe {
            let (from, len) = (bytes.as_ptr(), bytes.len());
            raw::rlp_transaction(from, len, transaction_type.as_ptr(), at, cap, count)
        }
    })?;
    Ok(transaction_type.get())
}

/// Puts the fields of the header of a block that the bytes are at the end of a vector.
///
/// ```
/// use rlp_proved::{header_fields_into, DecoderError, FieldError};
/// let fault = DecoderError::RlpIncorrectListLen;
/// let error = FieldError { fault, field: 1 };
/// assert_eq!(header_fields_into(&[0xc0], &mut Vec::new()), Err(error));
/// ```
pub fn header_fields_into(bytes: &[u8], out: &mut Vec<Item>) -> Result<(), FieldError> {
    fill_fields(out, |at, cap, count| {
        // SAFETY: as for `transaction_into`.
        unsafe { raw::rlp_header_fields(bytes.as_ptr(), bytes.len(), at, cap, count) }
    })
}

/// As [`fill`], and after a fault with the number of its field.
fn fill_fields(
    out: &mut Vec<Item>,
    call: impl Fn(*mut Item, usize, *mut usize) -> u32,
) -> Result<(), FieldError> {
    let field = Cell::new(0);
    // SAFETY: both functions write `count` items, at most `cap`, and always set the count.
    let filled = unsafe {
        fill(out, |at, cap, count| {
            let status = call(at, cap, count);
            field.set(*count);
            status
        })
    };
    filled.map_err(|fault| FieldError {
        fault,
        field: field.get(),
    })
}
