use crate::error::DecoderError;
use crate::item::Item;
use crate::writing::encode_into;

/// Collects the items of a tree, and then writes their encoding at once.
#[derive(Clone, Debug, Default)]
pub struct RlpStream {
    items: Vec<Item>,
    strings: Vec<u8>,
    depth: u32,
}

impl RlpStream {
    /// Returns a stream without items.
    ///
    /// ```
    /// assert!(rlp_proved::RlpStream::new().out().is_err());
    /// ```
    pub fn new() -> RlpStream {
        RlpStream::default()
    }

    /// Appends a value to the open list, or as the whole if none is open.
    ///
    /// ```
    /// let mut stream = rlp_proved::RlpStream::new();
    /// stream.append(b"cat");
    /// assert_eq!(stream.out()?, b"\x83cat");
    /// # Ok::<(), rlp_proved::DecoderError>(())
    /// ```
    pub fn append<E: Encodable + ?Sized>(&mut self, value: &E) -> &mut RlpStream {
        value.rlp_append(self);
        self
    }

    /// Appends the empty string.
    ///
    /// ```
    /// let mut stream = rlp_proved::RlpStream::new();
    /// stream.append_empty_data();
    /// assert_eq!(stream.out()?, [0x80]);
    /// # Ok::<(), rlp_proved::DecoderError>(())
    /// ```
    pub fn append_empty_data(&mut self) -> &mut RlpStream {
        self.append_string(&[])
    }

    /// Opens a list, to which the values are appended that follow.
    ///
    /// ```
    /// let mut stream = rlp_proved::RlpStream::new();
    /// stream.begin_unbounded_list().append(&5u8);
    /// assert!(!stream.is_finished());
    /// ```
    pub fn begin_unbounded_list(&mut self) -> &mut RlpStream {
        self.items.push(Item::list(self.depth));
        self.depth += 1;
        self
    }

    /// Closes the list that was opened last. It panics if none is open.
    ///
    /// ```
    /// let mut stream = rlp_proved::RlpStream::new();
    /// stream.begin_unbounded_list().finalize_unbounded_list();
    /// assert_eq!(stream.out()?, [0xc0]);
    /// # Ok::<(), rlp_proved::DecoderError>(())
    /// ```
    pub fn finalize_unbounded_list(&mut self) -> &mut RlpStream {
        self.depth = self.depth.checked_sub(1).expect("a list is open");
        self
    }

    /// Returns whether no list is open.
    ///
    /// ```
    /// assert!(rlp_proved::RlpStream::new().is_finished());
    /// ```
    pub fn is_finished(&self) -> bool {
        self.depth == 0
    }

    /// Drops all items, and keeps the memory.
    ///
    /// ```
    /// let mut stream = rlp_proved::RlpStream::new();
    /// stream.append(&5u8).clear();
    /// assert!(stream.out().is_err());
    /// ```
    pub fn clear(&mut self) {
        self.items.clear();
        self.strings.clear();
        self.depth = 0;
    }

    /// Returns the encoding of the tree. An open list ends here. Fails with
    /// [`RlpBadItems`](DecoderError::RlpBadItems) for no item, for several beside each other, and
    /// for more lists, one in the other, than [`DEPTH_LIMIT`](crate::DEPTH_LIMIT).
    ///
    /// ```
    /// use rlp_proved::{DecoderError, RlpStream};
    /// let mut stream = RlpStream::new();
    /// assert_eq!(stream.append(&1000u16).out()?, [0x82, 3, 0xe8]);
    /// assert_eq!(stream.append(&5u8).out(), Err(DecoderError::RlpBadItems));
    /// # Ok::<(), DecoderError>(())
    /// ```
    pub fn out(&self) -> Result<Vec<u8>, DecoderError> {
        let mut out = Vec::with_capacity(self.strings.len() + 9 * self.items.len());
        encode_into(&self.items, &self.strings, &mut out)?;
        Ok(out)
    }

    fn append_string(&mut self, string: &[u8]) -> &mut RlpStream {
        self.items
            .push(Item::string(self.depth, self.strings.len(), string.len()));
        self.strings.extend_from_slice(string);
        self
    }
}

/// A value that is one item.
pub trait Encodable {
    /// Appends the item of the value to a stream.
    ///
    /// ```
    /// use rlp_proved::{Encodable, RlpStream};
    /// struct Pair(u8, u8);
    /// impl Encodable for Pair {
    ///     fn rlp_append(&self, s: &mut RlpStream) {
    ///         s.begin_unbounded_list().append(&self.0).append(&self.1).finalize_unbounded_list();
    ///     }
    /// }
    /// assert_eq!(rlp_proved::encode(&Pair(5, 6)), [0xc2, 5, 6]);
    /// ```
    fn rlp_append(&self, s: &mut RlpStream);
}

impl Encodable for [u8] {
    fn rlp_append(&self, s: &mut RlpStream) {
        s.append_string(self);
    }
}

impl<const N: usize> Encodable for [u8; N] {
    fn rlp_append(&self, s: &mut RlpStream) {
        s.append_string(self);
    }
}

impl Encodable for Vec<u8> {
    fn rlp_append(&self, s: &mut RlpStream) {
        s.append_string(self);
    }
}

impl Encodable for str {
    fn rlp_append(&self, s: &mut RlpStream) {
        s.append_string(self.as_bytes());
    }
}

impl<E: Encodable + ?Sized> Encodable for &E {
    fn rlp_append(&self, s: &mut RlpStream) {
        (**self).rlp_append(s);
    }
}

macro_rules! encodable_number {
    ($($number:ty),*) => {$(
        impl Encodable for $number {
            fn rlp_append(&self, s: &mut RlpStream) {
                s.append_string(&self.to_be_bytes()[self.leading_zeros() as usize / 8..]);
            }
        }
    )*};
}

encodable_number!(u8, u16, u32, u64, u128, usize);
