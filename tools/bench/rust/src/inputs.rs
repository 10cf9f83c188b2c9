//! The inputs of the operations, as in `crates/rlp_bench/src/inputs.rt`.

use rlp::{Decodable, DecoderError, Encodable, Rlp, RlpStream};

/// A signed legacy transaction. Numbers of 256 bits are kept as their digits.
pub struct Transaction {
    pub nonce: u64,
    pub gas_price: u64,
    pub gas_limit: u64,
    pub to: Vec<u8>,
    pub value: u64,
    pub data: Vec<u8>,
    pub v: u64,
    pub r: Vec<u8>,
    pub s: Vec<u8>,
}

impl Encodable for Transaction {
    fn rlp_append(&self, s: &mut RlpStream) {
        s.begin_list(9);
        s.append(&self.nonce).append(&self.gas_price).append(&self.gas_limit);
        s.append(&self.to).append(&self.value).append(&self.data);
        s.append(&self.v).append(&self.r).append(&self.s);
    }
}

impl Decodable for Transaction {
    fn decode(rlp: &Rlp) -> Result<Transaction, DecoderError> {
        Ok(Transaction {
            nonce: rlp.val_at(0)?,
            gas_price: rlp.val_at(1)?,
            gas_limit: rlp.val_at(2)?,
            to: rlp.val_at(3)?,
            value: rlp.val_at(4)?,
            data: rlp.val_at(5)?,
            v: rlp.val_at(6)?,
            r: rlp.val_at(7)?,
            s: rlp.val_at(8)?,
        })
    }
}

/// Values, and encodings. Each encoding is there twice, one after the other.
pub struct Inputs {
    pub numbers: Vec<u64>,
    pub text: String,
    pub transaction: Transaction,
    pub small_number: Vec<u8>,
    pub large_number: Vec<u8>,
    pub short_string: Vec<u8>,
    pub long_string: Vec<u8>,
    pub transaction_bytes: Vec<u8>,
    pub block: Vec<u8>,
    pub list: Vec<u8>,
    pub long_list: Vec<u8>,
    pub branch: Vec<u8>,
    pub hashes: Vec<u8>,
}

impl Inputs {
    pub fn new() -> Inputs {
        let numbers = numbers(1000);
        let text: String = (0..1000).map(|turn| (b'a' + (turn % 26) as u8) as char).collect();
        let short = text.as_bytes()[..32].to_vec();
        let transaction = transaction();
        Inputs {
            small_number: twice(&rlp::encode(&5u64)),
            large_number: twice(&rlp::encode(&0x0123_4567_89ab_cdefu64)),
            short_string: twice(&rlp::encode(&short)),
            long_string: twice(&rlp::encode(&text)),
            transaction_bytes: twice(&rlp::encode(&transaction)),
            block: repeated(&transaction, 100),
            list: twice(&rlp::encode_list::<u64, u64>(&numbers)),
            long_list: repeated(&300u64, 10_000),
            branch: repeated(&short, 17),
            hashes: repeated(&short, 200),
            numbers,
            text,
            transaction,
        }
    }
}

fn numbers(count: usize) -> Vec<u64> {
    let mut state: u64 = 1;
    let mut number = |turn: usize| {
        state = state.wrapping_mul(6_364_136_223_846_793_005).wrapping_add(1_442_695_040_888_963_407);
        state >> (8 * (turn % 8))
    };
    (0..count).map(|turn| number(turn)).collect()
}

fn transaction() -> Transaction {
    Transaction {
        nonce: 9,
        gas_price: 20_000_000_000,
        gas_limit: 21_000,
        to: vec![0x35; 20],
        value: 1_000_000_000_000_000_000,
        data: Vec::new(),
        v: 37,
        r: vec![0x28; 32],
        s: vec![0x67; 32],
    }
}

fn repeated<E: Encodable>(value: &E, count: usize) -> Vec<u8> {
    let mut stream = RlpStream::new_list(count);
    for _ in 0..count {
        stream.append(value);
    }
    twice(&stream.out())
}

fn twice(bytes: &[u8]) -> Vec<u8> {
    [bytes, bytes].concat()
}
