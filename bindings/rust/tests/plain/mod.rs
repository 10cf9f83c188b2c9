//! A plain second implementation, which shares no code with the library.

use rlp_proved::DecoderError::{self, *};

#[derive(Clone, Debug, PartialEq)]
pub enum Plain<'a> {
    String(&'a [u8]),
    List(Vec<Plain<'a>>),
}

fn number(digits: &[u8]) -> usize {
    digits
        .iter()
        .fold(0, |number, digit| number << 8 | *digit as usize)
}

/// The lengths of the header and the payload of the item that the bytes begin with.
fn header(bytes: &[u8]) -> Result<(usize, usize), DecoderError> {
    let first = *bytes.first().ok_or(RlpIsTooShort)?;
    let (base, fault) = match first {
        0..=0x7f => return Ok((0, 1)),
        0x80..=0xbf => (0x80, RlpDataLenWithZeroPrefix),
        _ => (0xc0, RlpListLenWithZeroPrefix),
    };
    let (mut header_len, mut payload_len) = (1, (first - base) as usize);
    if payload_len > 55 {
        header_len = payload_len - 54;
        if *bytes.get(1).ok_or(RlpIsTooShort)? == 0 {
            return Err(fault);
        }
        payload_len = number(bytes.get(1..header_len).ok_or(RlpIsTooShort)?);
        if payload_len <= 55 {
            return Err(RlpInvalidIndirection);
        }
    }
    if payload_len > bytes.len() - header_len {
        return Err(RlpIsTooShort);
    }
    Ok((header_len, payload_len))
}

/// The first item of the bytes, and those after it.
fn item(bytes: &[u8], lists: u32) -> Result<(Plain<'_>, &[u8]), DecoderError> {
    let (header_len, payload_len) = header(bytes)?;
    let (whole, after) = bytes.split_at(header_len + payload_len);
    let mut payload = &whole[header_len..];
    if bytes[0] < 0xc0 {
        if header_len == 1 && payload_len == 1 && payload[0] < 0x80 {
            return Err(RlpInvalidIndirection);
        }
        return Ok((Plain::String(payload), after));
    }
    let lists = lists.checked_sub(1).ok_or(RlpTooDeep)?;
    let mut items = Vec::new();
    while !payload.is_empty() {
        let (item, others) = item(payload, lists)?;
        items.push(item);
        payload = others;
    }
    Ok((Plain::List(items), after))
}

/// The tree whose canonical encoding the bytes are, or the first fault.
pub fn decode(bytes: &[u8], max_depth: u32) -> Result<Plain<'_>, DecoderError> {
    let (header_len, payload_len) = header(bytes)?;
    if header_len + payload_len < bytes.len() {
        return Err(RlpIsTooBig);
    }
    Ok(item(bytes, max_depth)?.0)
}

fn write_header(base: u8, payload_len: usize, out: &mut Vec<u8>) {
    if payload_len <= 55 {
        return out.push(base + payload_len as u8);
    }
    let digits = payload_len.to_be_bytes();
    let digits = &digits[payload_len.leading_zeros() as usize / 8..];
    out.push(base + 55 + digits.len() as u8);
    out.extend_from_slice(digits);
}

/// Appends the encoding of a tree.
pub fn encode(tree: &Plain, out: &mut Vec<u8>) {
    match tree {
        Plain::String(string) => {
            if string.len() != 1 || string[0] >= 0x80 {
                write_header(0x80, string.len(), out);
            }
            out.extend_from_slice(string);
        }
        Plain::List(items) => {
            let mut payload = Vec::new();
            items.iter().for_each(|item| encode(item, &mut payload));
            write_header(0xc0, payload.len(), out);
            out.extend_from_slice(&payload);
        }
    }
}
