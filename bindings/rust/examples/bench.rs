//! bench FILE: nanoseconds for one call over the bytes of a file, by the library and by plain Rust.

#[path = "../tests/plain/mod.rs"]
mod plain;

use rlp_proved::{encode_into, flatten_into, is_canonical, DEPTH_LIMIT};
use std::hint::black_box;
use std::time::{Duration, Instant};
use std::{env, fs};

const RUNS: usize = 15;

fn run(call: &mut impl FnMut(), rounds: u32) -> Duration {
    let start = Instant::now();
    (0..rounds).for_each(|_| call());
    start.elapsed()
}

/// Prints the shortest time of some runs, each of enough rounds to be measured.
fn measure(name: &str, mut call: impl FnMut()) {
    let mut rounds = 1;
    while run(&mut call, rounds) < Duration::from_millis(5) && rounds < 1 << 24 {
        rounds *= 2;
    }
    let best = (0..RUNS).map(|_| run(&mut call, rounds)).min().unwrap();
    println!("{name} {:.1}", best.as_nanos() as f64 / rounds as f64);
}

fn main() {
    let bytes = fs::read(env::args().nth(1).expect("a file")).expect("the file is read");
    let (mut items, mut out) = (Vec::new(), Vec::new());
    measure("decode", || {
        items.clear();
        flatten_into(black_box(&bytes), DEPTH_LIMIT, &mut items).unwrap();
    });
    measure("is_canonical", || {
        assert!(is_canonical(black_box(&bytes), DEPTH_LIMIT))
    });
    measure("encode", || {
        out.clear();
        encode_into(black_box(&items), &bytes, &mut out).unwrap();
    });
    let tree = plain::decode(&bytes, DEPTH_LIMIT).unwrap();
    measure("plain_decode", || {
        black_box(plain::decode(black_box(&bytes), DEPTH_LIMIT)).unwrap();
    });
    measure("plain_encode", || {
        out.clear();
        plain::encode(black_box(&tree), &mut out);
    });
    println!("items {}", items.len());
}
