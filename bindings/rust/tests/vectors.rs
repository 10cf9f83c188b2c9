//! Each row of `bindings/vectors`: the bytes are the encoding of the tree that it states, or have
//! the fault that it names.

use rlp_proved::{encode_into, is_canonical, Tree, DEPTH_LIMIT};

fn bytes_of(digits: &str) -> Vec<u8> {
    let pairs = digits
        .as_bytes()
        .chunks(2)
        .map(|pair| std::str::from_utf8(pair).unwrap());
    pairs
        .map(|pair| u8::from_str_radix(pair, 16).unwrap())
        .collect()
}

/// The tree as text and its encoding, or the name of the fault.
fn told(bytes: &[u8]) -> (String, Vec<u8>) {
    match Tree::new(bytes) {
        Ok(tree) => {
            let mut out = Vec::new();
            encode_into(tree.items(), bytes, &mut out).unwrap();
            (tree.root().to_string(), out)
        }
        Err(fault) => (fault.to_string(), Vec::new()),
    }
}

#[test]
fn public_vectors() {
    let rows = include_str!("../../vectors")
        .lines()
        .filter(|line| !line.starts_with('#'));
    let mut count = 0;
    for (digits, wanted) in rows.filter_map(|line| line.split_once(" => ")) {
        let bytes = bytes_of(digits);
        let (text, again) = told(&bytes);
        let (wanted, is_valid) = match wanted.split_once(" at ") {
            Some((name, _)) => (name, false),
            None => (wanted, true),
        };
        assert_eq!(text, wanted, "{digits}");
        assert_eq!(is_canonical(&bytes, DEPTH_LIMIT), is_valid, "{digits}");
        assert!(!is_valid || again == bytes, "{digits}");
        count += 1;
    }
    assert!(count > 80);
}
