use crate::raw::RLP_OK;
use std::error::Error;
use std::fmt;

/// Why bytes aren't what is read, or items describe no tree.
#[derive(Clone, Copy, Debug, PartialEq, Eq, Hash)]
#[non_exhaustive]
#[repr(u32)]
pub enum DecoderError {
    /// Bytes follow the item, or a number has too many bytes.
    RlpIsTooBig = 1,
    /// The bytes end before the item does.
    RlpIsTooShort = 2,
    /// A string, or no bytes, in place of a list.
    RlpExpectedToBeList = 3,
    /// A list in place of a string.
    RlpExpectedToBeData = 4,
    /// A record of Ethereum has a field too few or too many.
    RlpIncorrectListLen = 5,
    /// The length of a string begins with a zero byte.
    RlpDataLenWithZeroPrefix = 6,
    /// The length of a list begins with a zero byte.
    RlpListLenWithZeroPrefix = 7,
    /// There is a shorter encoding, or a number begins with a zero byte.
    RlpInvalidIndirection = 8,
    /// The bytes end before the string that is read does.
    RlpInconsistentLengthAndData = 9,
    /// A header and its string are 2^64 bytes or more.
    RlpInvalidLength = 10,
    /// A number of a signature is out of range.
    RlpInvalidSignature = 11,
    /// There are more lists, one in the other, than allowed.
    RlpTooDeep = 14,
    /// The items describe no tree, or lie outside the bytes.
    RlpBadItems = 15,
    /// A transaction begins no list, and its first byte isn't 1 to 4.
    RlpUnknownType = 16,
}

const ALL: [DecoderError; 14] = [
    DecoderError::RlpIsTooBig,
    DecoderError::RlpIsTooShort,
    DecoderError::RlpExpectedToBeList,
    DecoderError::RlpExpectedToBeData,
    DecoderError::RlpIncorrectListLen,
    DecoderError::RlpDataLenWithZeroPrefix,
    DecoderError::RlpListLenWithZeroPrefix,
    DecoderError::RlpInvalidIndirection,
    DecoderError::RlpInconsistentLengthAndData,
    DecoderError::RlpInvalidLength,
    DecoderError::RlpInvalidSignature,
    DecoderError::RlpTooDeep,
    DecoderError::RlpBadItems,
    DecoderError::RlpUnknownType,
];

impl fmt::Display for DecoderError {
    fn fmt(&self, f: &mut fmt::Formatter<'_>) -> fmt::Result {
        fmt::Debug::fmt(self, f)
    }
}

impl Error for DecoderError {}

/// What a status says.
pub(crate) fn answer(status: u32) -> Result<(), DecoderError> {
    if status == RLP_OK {
        return Ok(());
    }
    let fault = ALL.into_iter().find(|fault| *fault as u32 == status);
    Err(fault.expect("a status of rlp.h"))
}
