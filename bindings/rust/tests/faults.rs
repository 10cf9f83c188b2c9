//! Each fault is given by its name, and each call takes no bytes and no items.

use rlp_proved::*;
use DecoderError::*;

#[test]
fn each_fault() {
    let mut items = Vec::new();
    assert_eq!(flatten_into(&[0xc0, 5], 1, &mut items), Err(RlpIsTooBig));
    assert_eq!(header(&[0x82, 1]), Err(RlpIsTooShort));
    assert_eq!(split_into(&[5], &mut items), Err(RlpExpectedToBeList));
    assert_eq!(decode::<u64>(&[0xc0]), Err(RlpExpectedToBeData));
    assert_eq!(header(&[0xb8, 0]), Err(RlpDataLenWithZeroPrefix));
    assert_eq!(header(&[0xf8, 0]), Err(RlpListLenWithZeroPrefix));
    assert_eq!(decode::<&[u8]>(&[0x81, 5]), Err(RlpInvalidIndirection));
    assert_eq!(decode::<u16>(&[0x82, 0, 5]), Err(RlpInvalidIndirection));
    assert_eq!(decode::<u8>(&[0x82, 1, 5]), Err(RlpIsTooBig));
    assert_eq!(
        decode::<&[u8]>(&[0x82, 5]),
        Err(RlpInconsistentLengthAndData)
    );
    assert_eq!(
        decode::<&[u8]>(&[0xbf, 255, 255, 255, 255, 255, 255, 255, 255]),
        Err(RlpInvalidLength)
    );
    assert_eq!(flatten_into(&[0xc1, 0xc0], 1, &mut items), Err(RlpTooDeep));
    assert_eq!(
        encode_into(&[Item::string(0, 2, 2)], b"cat", &mut Vec::new()),
        Err(RlpBadItems)
    );
    assert!(items.is_empty());
}

#[test]
fn nothing() {
    assert_eq!(header(&[]), Err(RlpIsTooShort));
    assert!(!is_canonical(&[], DEPTH_LIMIT));
    assert_eq!(Tree::new(&[]).err(), Some(RlpIsTooShort));
    assert_eq!(split_into(&[], &mut Vec::new()), Err(RlpExpectedToBeList));
    assert_eq!(decode_bytes(&[], Mode::Lenient), Err(RlpIsTooShort));
    assert_eq!(decode_u64(&[], Mode::Lenient), Err(RlpIsTooShort));
    assert_eq!(decode_uint(&[], Mode::Lenient, 0), Err(RlpIsTooShort));
    assert_eq!(encode_into(&[], &[], &mut Vec::new()), Err(RlpBadItems));
    assert_eq!(encode_into(&[Item::list(0)], &[], &mut Vec::new()), Ok(()));
    assert_eq!(text(&[]), Ok("null".to_string()));
    assert_eq!(encode(b""), [0x80]);
    assert_eq!(encode(&0u128), [0x80]);
}

#[test]
fn depth_of_streams() {
    for lists in [1, DEPTH_LIMIT, DEPTH_LIMIT + 1, 1000] {
        let mut stream = RlpStream::new();
        for _ in 0..lists {
            stream.begin_unbounded_list();
        }
        let bytes = stream.out();
        assert_eq!(bytes.is_ok(), lists <= DEPTH_LIMIT, "{lists}");
        let depth = bytes.map(|bytes| Tree::new(&bytes).unwrap().items().len());
        assert!(depth.is_err() || depth == Ok(lists as usize));
    }
}

#[test]
fn numbers() {
    for shift in 0..128 {
        for number in [1u128 << shift, (1 << shift) - 1, u128::MAX >> shift] {
            assert_eq!(decode_strict::<u128>(&encode(&number)), Ok(number));
            if let Ok(number) = u64::try_from(number) {
                let mut out = Vec::new();
                append_u64(number, &mut out);
                assert_eq!(out, encode(&number));
                assert_eq!(decode_u64(&out, Mode::Strict), Ok(number));
            }
        }
    }
}
