/// An item of some bytes: its header begins at `offset`, and its payload follows the header.
#[repr(C)]
#[derive(Clone, Copy, Debug, Default, PartialEq, Eq)]
pub struct Item {
    pub offset: usize,
    /// 0 to 9; 0 for a byte below 0x80, which is its own encoding.
    pub header_len: usize,
    pub payload_len: usize,
    /// The number of lists around the item.
    pub depth: u32,
    is_list: u32,
}

impl Item {
    /// Returns a list inside so many others, for [`encode_into`](crate::encode_into). The items in
    /// it follow it.
    ///
    /// ```
    /// assert!(rlp_proved::Item::list(0).is_list());
    /// ```
    pub fn list(depth: u32) -> Item {
        Item {
            depth,
            is_list: 1,
            ..Item::default()
        }
    }

    /// Returns the string of the bytes from `offset` on, inside so many lists, for
    /// [`encode_into`](crate::encode_into).
    ///
    /// ```
    /// assert_eq!(rlp_proved::Item::string(0, 1, 3).payload(b"(cat)"), b"cat");
    /// ```
    pub fn string(depth: u32, offset: usize, len: usize) -> Item {
        Item {
            offset,
            payload_len: len,
            depth,
            ..Item::default()
        }
    }

    /// Returns whether the item is a list.
    ///
    /// ```
    /// assert!(!rlp_proved::Item::string(0, 0, 3).is_list());
    /// ```
    pub fn is_list(&self) -> bool {
        self.is_list != 0
    }

    /// Returns where the item ends.
    ///
    /// ```
    /// assert_eq!(rlp_proved::header(b"\x83cat and more")?.end(), 4);
    /// # Ok::<(), rlp_proved::DecoderError>(())
    /// ```
    pub fn end(&self) -> usize {
        self.offset + self.header_len + self.payload_len
    }

    /// Returns the payload, in the bytes that the item was found in. It panics for other bytes that
    /// are too short.
    ///
    /// ```
    /// assert_eq!(rlp_proved::header(b"\x83cat")?.payload(b"\x83cat"), b"cat");
    /// # Ok::<(), rlp_proved::DecoderError>(())
    /// ```
    pub fn payload<'a>(&self, bytes: &'a [u8]) -> &'a [u8] {
        &bytes[self.offset + self.header_len..self.end()]
    }

    /// Returns the encoding, in the bytes that the item was found in. It panics for other bytes
    /// that are too short.
    ///
    /// ```
    /// assert_eq!(rlp_proved::header(b"\x05\x06")?.as_raw(b"\x05\x06"), b"\x05");
    /// # Ok::<(), rlp_proved::DecoderError>(())
    /// ```
    pub fn as_raw<'a>(&self, bytes: &'a [u8]) -> &'a [u8] {
        &bytes[self.offset..self.end()]
    }
}
