//! Each row of `bindings/records`: the fields of the bytes are as many as it states, one behind the
//! other, or one has the fault that it names.

use rlp_proved::{header, header_fields_into, transaction_into, Item};

fn bytes_of(digits: &str) -> Vec<u8> {
    (0..digits.len() / 2)
        .map(|at| u8::from_str_radix(&digits[2 * at..2 * at + 2], 16).unwrap())
        .collect()
}

/// What a row has to say of the bytes.
fn told(call: &str, bytes: &[u8], fields: &mut Vec<Item>) -> String {
    let told = match call {
        "header" => header_fields_into(bytes, fields).map(|()| String::new()),
        _ => transaction_into(bytes, fields).map(|number| format!("type {number}, ")),
    };
    match told {
        Ok(told) => format!("{told}{} fields", fields.len()),
        Err(error) => error.to_string(),
    }
}

#[test]
fn rows() {
    let mut count = 0;
    for line in include_str!("../../records").lines() {
        let Some((call, (digits, wanted))) = line
            .split_once(' ')
            .and_then(|(call, rest)| Some((call, rest.split_once(" => ")?)))
        else {
            continue;
        };
        let bytes = bytes_of(digits);
        let mut fields = Vec::new();
        assert_eq!(told(call, &bytes, &mut fields), wanted, "{call} {digits}");
        if !fields.is_empty() {
            let start = usize::from(bytes[0] < 0xc0);
            let mut place = start + header(&bytes[start..]).unwrap().header_len;
            for field in &fields {
                assert_eq!(field.offset, place, "{digits}");
                place = field.end();
            }
            assert_eq!(place, bytes.len(), "{digits}");
        }
        count += 1;
    }
    assert!(count > 150);
}
