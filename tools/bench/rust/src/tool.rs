//! The answers of `rlp_tool` by the Rust crate `rlp`, for `tools/bench/run program --rust`. It makes the
//! same answers to lines that are at no fault, and tests neither the depth of lists nor raw bytes.

use rlp::{Rlp, RlpStream};
use std::fmt::Write as _;
use std::io::{self, BufRead, BufReader, BufWriter, Write};

const DIGITS: &[u8; 16] = b"0123456789abcdef";

/// The number of each digit of either case, and 0xff for other bytes.
const VALUES: [u8; 256] = {
    let mut values = [0xff; 256];
    let mut place = 0;
    while place < 16 {
        values[DIGITS[place] as usize] = place as u8;
        values[DIGITS[place].to_ascii_uppercase() as usize] = place as u8;
        place += 1;
    }
    values
};

/// A call of a stream, with its bytes as text.
enum Call<'a> {
    Value(&'a [u8]),
    Raw(&'a [u8], usize),
    Begin(usize),
    BeginUnbounded,
    Finish,
    Clear,
}

/// Decodes digits after an optional `0x` to a buffer that is used again for the next ones.
fn decode(text: &[u8], bytes: &mut Vec<u8>) -> Option<()> {
    let digits = text.strip_prefix(b"0x").unwrap_or(text);
    if digits.len() % 2 != 0 {
        return None;
    }
    bytes.clear();
    bytes.reserve(digits.len() / 2);
    for pair in digits.chunks_exact(2) {
        let (high, low) = (VALUES[pair[0] as usize], VALUES[pair[1] as usize]);
        if high | low == 0xff {
            return None;
        }
        bytes.push(high << 4 | low);
    }
    Some(())
}

fn put_digits(bytes: &[u8], out: &mut Vec<u8>) {
    for byte in bytes {
        out.push(DIGITS[(byte >> 4) as usize]);
        out.push(DIGITS[(byte & 15) as usize]);
    }
}

fn number(text: &[u8]) -> Option<usize> {
    std::str::from_utf8(text).ok()?.parse().ok()
}

fn are_digits(text: &[u8]) -> bool {
    let digits = text.strip_prefix(b"0x").unwrap_or(text);
    digits.len() % 2 == 0 && digits.iter().all(|digit| VALUES[*digit as usize] != 0xff)
}

fn call_in(piece: &[u8]) -> Option<Call<'_>> {
    match piece {
        [b'u'] => Some(Call::BeginUnbounded),
        [b'e'] => Some(Call::Finish),
        [b'c'] => Some(Call::Clear),
        [b'l', b':', count @ ..] => Some(Call::Begin(number(count)?)),
        [b'd', b':', digits @ ..] if are_digits(digits) => Some(Call::Value(digits)),
        [b'r', b':', rest @ ..] => {
            let (count, digits) = rest.split_at(rest.iter().position(|byte| *byte == b':')?);
            are_digits(&digits[1..]).then_some(Call::Raw(&digits[1..], number(count)?))
        }
        _ => None,
    }
}

/// Answers a script. All of it is read before the first call is made.
fn answer_script(text: &[u8], bytes: &mut Vec<u8>, out: &mut Vec<u8>) -> Option<()> {
    let calls = text.split(|byte| *byte == b' ').map(call_in).collect::<Option<Vec<_>>>()?;
    let mut stream = RlpStream::new();
    for call in calls {
        match call {
            Call::Value(digits) => {
                decode(digits, bytes)?;
                stream.append(&bytes.as_slice());
            }
            Call::Raw(digits, count) => {
                decode(digits, bytes)?;
                stream.append_raw(bytes, count);
            }
            Call::Begin(count) => drop(stream.begin_list(count)),
            Call::BeginUnbounded => drop(stream.begin_unbounded_list()),
            Call::Finish => stream.finalize_unbounded_list(),
            Call::Clear => stream.clear(),
        }
    }
    out.extend_from_slice(b"out ");
    put_digits(&stream.out(), out);
    Some(())
}

fn answer(line: &[u8], bytes: &mut Vec<u8>, text: &mut String, out: &mut Vec<u8>) -> Option<()> {
    if let Some(script) = line.strip_prefix(b"+") {
        return answer_script(script, bytes, out);
    }
    decode(line, bytes)?;
    text.clear();
    write!(text, "{}", Rlp::new(bytes)).ok()?;
    out.extend_from_slice(text.as_bytes());
    Some(())
}

fn main() -> io::Result<()> {
    let mut input = BufReader::with_capacity(65_536, io::stdin().lock());
    let mut output = BufWriter::with_capacity(65_536, io::stdout().lock());
    let (mut line, mut bytes, mut text, mut out) = (Vec::new(), Vec::new(), String::new(), Vec::new());
    while input.read_until(b'\n', &mut line)? > 0 {
        let content = line.strip_suffix(b"\n").unwrap_or(&line);
        out.clear();
        if answer(content, &mut bytes, &mut text, &mut out).is_none() {
            out.extend_from_slice(b"error");
        }
        out.push(b'\n');
        output.write_all(&out)?;
        line.clear();
    }
    output.flush()
}
