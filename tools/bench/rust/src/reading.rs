//! Operations that read.

use crate::inputs::{Inputs, Transaction};
use rlp::{DecoderError, Rlp};

/// Runs an operation that reads, and returns the sum of the lengths or numbers that it read.
pub fn run(inputs: &Inputs, operation: &str, times: usize) -> Option<usize> {
    match operation {
        "decode_small_number" => summed(&inputs.small_number, times, |rlp| Ok(rlp.as_val::<u64>()? as usize)),
        "decode_number" => summed(&inputs.large_number, times, |rlp| Ok(rlp.as_val::<u64>()? as usize)),
        "decode_32_bytes" => summed(&inputs.short_string, times, |rlp| Ok(rlp.as_val::<Vec<u8>>()?.len())),
        "decode_1000_bytes" => summed(&inputs.long_string, times, |rlp| Ok(rlp.as_val::<Vec<u8>>()?.len())),
        "decode_text_of_32" => summed(&inputs.short_string, times, |rlp| Ok(rlp.as_val::<String>()?.len())),
        "decode_text_of_1000" => summed(&inputs.long_string, times, |rlp| Ok(rlp.as_val::<String>()?.len())),
        "decode_list" => summed(&inputs.list, times, |rlp| Ok(rlp::decode_list::<u64>(rlp.as_raw()).len())),
        "as_list" => summed(&inputs.list, times, |rlp| Ok(rlp.as_list::<u64>()?.len())),
        "decode_transaction" => summed(&inputs.transaction_bytes, times, |rlp| Ok(rlp.as_val::<Transaction>()?.gas_limit as usize)),
        "transaction_by_iter" => summed(&inputs.transaction_bytes, times, by_iter),
        "transaction_by_at" => summed(&inputs.transaction_bytes, times, |rlp| by_at(rlp, 9)),
        "branch_by_iter" => summed(&inputs.branch, times, by_iter),
        "branch_by_at" => summed(&inputs.branch, times, |rlp| by_at(rlp, 17)),
        "branch_by_val_at" => summed(&inputs.branch, times, |rlp| by_val_at(rlp, 17)),
        "hashes_by_at" => summed(&inputs.hashes, times, |rlp| by_at(rlp, 200)),
        "hashes_by_at_shuffled" => summed(&inputs.hashes, times, by_at_shuffled),
        "item_count_of_1000" => summed(&inputs.list, times, |rlp| rlp.item_count()),
        "item_count_of_9" => summed(&inputs.transaction_bytes, times, |rlp| rlp.item_count()),
        "iterate_10000" => summed(&inputs.long_list, times, by_iter),
        "iterate_10000_numbers" => summed(&inputs.long_list, times, numbers_by_iter),
        "iterate_100_transactions" => summed(&inputs.block, times, by_iter),
        "payload_info" => summed(&inputs.long_string, times, |rlp| Ok(rlp.payload_info()?.value_len)),
        "kinds" => summed(&inputs.large_number, times, kinds),
        "data_and_size" => summed(&inputs.long_string, times, |rlp| Ok(rlp.data()?.len() + rlp.size())),
        _ => None,
    }
}

/// Reads a view of one of the two encodings in the bytes many times. Each turn takes the other one.
fn summed(bytes: &[u8], times: usize, read: impl Fn(&Rlp) -> Result<usize, DecoderError>) -> Option<usize> {
    let mut sum: usize = 0;
    let (mut encoding, mut other) = bytes.split_at(bytes.len() / 2);
    for _ in 0..times {
        sum = sum.wrapping_add(read(&Rlp::new(encoding)).ok()?);
        std::mem::swap(&mut encoding, &mut other);
    }
    Some(sum)
}

fn by_iter(rlp: &Rlp) -> Result<usize, DecoderError> {
    Ok(rlp.iter().map(|item| item.as_raw().len()).sum())
}

#[inline(never)]
fn numbers_by_iter(rlp: &Rlp) -> Result<usize, DecoderError> {
    let mut sum: usize = 0;
    for item in rlp.iter() {
        sum = sum.wrapping_add(item.as_val::<u64>()? as usize);
    }
    Ok(sum)
}

fn by_at(rlp: &Rlp, count: usize) -> Result<usize, DecoderError> {
    let mut sum: usize = 0;
    for index in 0..count {
        sum = sum.wrapping_add(rlp.at(index)?.as_raw().len());
    }
    Ok(sum)
}

/// Takes each of 200 items once, by steps of 77.
fn by_at_shuffled(rlp: &Rlp) -> Result<usize, DecoderError> {
    let mut sum: usize = 0;
    for turn in 0..200 {
        sum = sum.wrapping_add(rlp.at(turn * 77 % 200)?.as_raw().len());
    }
    Ok(sum)
}

fn by_val_at(rlp: &Rlp, count: usize) -> Result<usize, DecoderError> {
    let mut sum: usize = 0;
    for index in 0..count {
        sum = sum.wrapping_add(rlp.val_at::<Vec<u8>>(index)?.len());
    }
    Ok(sum)
}

fn kinds(rlp: &Rlp) -> Result<usize, DecoderError> {
    let kinds = [rlp.is_list(), rlp.is_data(), rlp.is_int(), rlp.is_empty(), rlp.is_null()];
    Ok(kinds.iter().map(|kind| *kind as usize).sum())
}
