//! The answers for random encodings, many of them spoiled, are those of a plain implementation.
//! `RLP_RANDOM` is their number, and `RLP_SEED` the seed.

mod plain;

use plain::Plain;
use rlp_proved::{decode_bytes, decode_uint, encode, flatten_into, is_canonical, split_into};
use rlp_proved::{DecoderError, Encodable, Mode, Rlp, RlpStream, Tree};
use std::env;

/// A source of random numbers.
struct Source(u64);

impl Source {
    fn draw(&mut self) -> u64 {
        self.0 = self.0.wrapping_add(0x9e3779b97f4a7c15);
        let mut number = self.0;
        number = (number ^ number >> 30).wrapping_mul(0xbf58476d1ce4e5b9);
        number = (number ^ number >> 27).wrapping_mul(0x94d049bb133111eb);
        number ^ number >> 31
    }

    fn below(&mut self, limit: usize) -> usize {
        (self.draw() % limit as u64) as usize
    }

    fn one_of<T: Copy>(&mut self, some: &[T]) -> T {
        some[self.below(some.len())]
    }
}

fn random_tree<'a>(source: &mut Source, pool: &'a [u8], depth: usize) -> Plain<'a> {
    if depth == 0 || source.below(2) == 0 {
        let len = source.one_of(&[0, 1, 1, 2, 3, 8, 20, 32, 54, 55, 56, 57, 255, 256, 300]);
        let start = source.below(pool.len() - len);
        return Plain::String(&pool[start..start + len]);
    }
    let count = source.one_of(&[0, 1, 2, 3, 9]);
    Plain::List(
        (0..count)
            .map(|_| random_tree(source, pool, depth - 1))
            .collect(),
    )
}

/// Appends an encoding, in which one header in sixteen is in front of a byte that needs none, or has
/// a needless length.
fn encode_oddly(source: &mut Source, tree: &Plain, out: &mut Vec<u8>) {
    if source.below(16) > 0 && matches!(tree, Plain::String(_)) {
        return plain::encode(tree, out);
    }
    let mut payload = Vec::new();
    let base = match tree {
        Plain::String(string) => {
            payload.extend_from_slice(string);
            0x80
        }
        Plain::List(items) => {
            items
                .iter()
                .for_each(|item| encode_oddly(source, item, &mut payload));
            0xc0
        }
    };
    let shortest = [0, 56, 256, 65536]
        .iter()
        .filter(|least| payload.len() >= **least)
        .count()
        - 1;
    let needless = usize::from(source.below(16) == 0 && shortest == 0) * source.below(3);
    let digits = shortest + needless;
    out.push(
        base + if digits == 0 {
            payload.len()
        } else {
            55 + digits
        } as u8,
    );
    out.extend_from_slice(&payload.len().to_be_bytes()[8 - digits..]);
    out.extend_from_slice(&payload);
}

/// Changes, drops or adds a byte, or cuts the bytes.
fn spoil(source: &mut Source, bytes: &mut Vec<u8>) {
    let at = source.below(bytes.len());
    let often = [
        0, 0x37, 0x38, 0x7f, 0x80, 0x81, 0xb7, 0xb8, 0xbf, 0xc0, 0xf7, 0xf8, 0xff,
    ];
    let byte = if source.below(2) == 0 {
        source.one_of(&often)
    } else {
        source.draw() as u8
    };
    match source.below(8) {
        7 => bytes.truncate(at),
        6 => drop(bytes.remove(at)),
        5 => bytes.insert(at, byte),
        _ => bytes[at] = byte,
    }
}

impl Encodable for Plain<'_> {
    fn rlp_append(&self, s: &mut RlpStream) {
        match self {
            Plain::String(string) => _ = s.append(*string),
            Plain::List(items) => {
                s.begin_unbounded_list();
                items.iter().for_each(|item| item.rlp_append(s));
                s.finalize_unbounded_list();
            }
        }
    }
}

fn as_plain<'a>(item: Rlp<'a>) -> Plain<'a> {
    if item.is_data() {
        return Plain::String(item.data());
    }
    Plain::List(item.iter().map(as_plain).collect())
}

/// What is read of a tree agrees with the tree.
fn compare_parts(bytes: &[u8], wanted: &Plain) {
    let tree = Tree::new(bytes).unwrap();
    assert_eq!(as_plain(tree.root()), *wanted);
    let mut few = Vec::with_capacity(tree.items().len() - 1);
    flatten_into(bytes, 256, &mut few).unwrap();
    assert_eq!(few, tree.items());
    match wanted {
        Plain::List(items) => {
            let mut found = Vec::new();
            split_into(bytes, &mut found).unwrap();
            assert_eq!(tree.root().item_count(), Ok(items.len()));
            let direct: Vec<_> = tree.root().iter().map(|item| item.item()).collect();
            assert_eq!(found, direct);
        }
        Plain::String(string) => {
            assert_eq!(decode_bytes(bytes, Mode::Strict), Ok(*string));
            let is_number = string.first() != Some(&0) && string.len() <= 8;
            assert_eq!(decode_uint(bytes, Mode::Strict, 8).is_ok(), is_number);
        }
    }
}

#[test]
fn random_encodings() {
    let number = |name, other| env::var(name).map_or(other, |text| text.parse().unwrap());
    let mut source = Source(number("RLP_SEED", 1));
    let count = number("RLP_RANDOM", 2000);
    let pool: Vec<u8> = (0..4096).map(|_| source.draw() as u8).collect();
    for _ in 0..count {
        let depth = source.below(6);
        let tree = random_tree(&mut source, &pool, depth);
        let mut bytes = Vec::new();
        plain::encode(&tree, &mut bytes);
        assert_eq!(encode(&tree), bytes);
        if source.below(4) == 0 {
            bytes.clear();
            encode_oddly(&mut source, &tree, &mut bytes);
        }
        if source.below(4) == 0 {
            spoil(&mut source, &mut bytes);
        }
        let max_depth = if source.below(4) == 0 {
            source.below(5) as u32
        } else {
            256
        };
        let wanted: Result<Plain, DecoderError> = plain::decode(&bytes, max_depth);
        let found = Tree::reusing(&bytes, max_depth, Vec::new());
        assert_eq!(
            found.map(|_| ()),
            wanted.as_ref().map(|_| ()).map_err(|fault| *fault),
            "{bytes:x?}"
        );
        assert_eq!(is_canonical(&bytes, max_depth), wanted.is_ok());
        if let Ok(tree) = wanted {
            compare_parts(&bytes, &tree);
        }
    }
    println!("{count} random encodings");
}
