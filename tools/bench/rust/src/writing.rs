//! Operations that write.

use crate::inputs::Inputs;
use rlp::RlpStream;

/// Runs an operation that writes, and returns the sum of the lengths that it wrote.
pub fn run(inputs: &Inputs, operation: &str, times: usize) -> Option<usize> {
    match operation {
        "encode_small_number" => summed(times, |turn| rlp::encode(&(inputs.numbers[turn % 1000] & 0x7f)).len()),
        "encode_number" => summed(times, |turn| rlp::encode(&inputs.numbers[turn % 1000]).len()),
        "encode_32_bytes" => summed(times, |turn| rlp::encode(&&inputs.text.as_bytes()[turn % 2..32]).len()),
        "encode_1000_bytes" => summed(times, |turn| rlp::encode(&&inputs.text.as_bytes()[turn % 2..1000]).len()),
        "encode_transaction" => summed(times, |_| rlp::encode(&inputs.transaction).len()),
        "encode_block" => summed(times, |_| encode_block(inputs)),
        "encode_unbounded_list" => summed(times, |_| encode_unbounded(inputs)),
        "encode_list" => summed(times, |_| rlp::encode_list::<u64, u64>(&inputs.numbers).len()),
        "append_raw" => summed(times, |_| append_raw(inputs)),
        "close_nested" => summed(times, |_| close_nested()),
        _ => None,
    }
}

/// Returns the sum of the lengths that many turns write.
fn summed(times: usize, write: impl Fn(usize) -> usize) -> Option<usize> {
    Some((0..times).fold(0, |sum: usize, turn| sum.wrapping_add(write(turn))))
}

fn encode_block(inputs: &Inputs) -> usize {
    let mut stream = RlpStream::new_list(100);
    for _ in 0..100 {
        stream.append(&inputs.transaction);
    }
    stream.as_raw().len()
}

fn encode_unbounded(inputs: &Inputs) -> usize {
    let mut stream = RlpStream::new();
    stream.begin_unbounded_list();
    for number in &inputs.numbers {
        stream.append(number);
    }
    stream.finalize_unbounded_list();
    stream.as_raw().len()
}

fn append_raw(inputs: &Inputs) -> usize {
    let transaction = &inputs.transaction_bytes[..inputs.transaction_bytes.len() / 2];
    let mut stream = RlpStream::new_list(100);
    for _ in 0..100 {
        stream.append_raw(transaction, 1);
    }
    stream.as_raw().len()
}

fn close_nested() -> usize {
    let mut stream = RlpStream::new();
    for _ in 0..200 {
        stream.begin_list(1);
    }
    stream.append(&"cat");
    stream.as_raw().len()
}
