use crate::error::DecoderError;
use crate::item::Item;
use crate::places::{flatten_into, DEPTH_LIMIT};
use crate::values::{Decodable, Mode};
use crate::writing::text;
use std::fmt;

/// The tree whose canonical encoding some bytes are: the bytes, and a vector of its items. Nothing
/// else is allocated.
#[derive(Clone, Debug)]
pub struct Tree<'a> {
    bytes: &'a [u8],
    items: Vec<Item>,
}

impl<'a> Tree<'a> {
    /// Reads the tree whose canonical encoding the bytes are.
    ///
    /// ```
    /// use rlp_proved::{DecoderError, Tree};
    /// assert_eq!(Tree::new(&[0xc2, 5, 6])?.root().item_count(), Ok(2));
    /// assert_eq!(Tree::new(&[0xc2, 0x81, 5]).err(), Some(DecoderError::RlpInvalidIndirection));
    /// # Ok::<(), DecoderError>(())
    /// ```
    pub fn new(bytes: &'a [u8]) -> Result<Tree<'a>, DecoderError> {
        Tree::reusing(bytes, DEPTH_LIMIT, Vec::with_capacity(bytes.len() / 8 + 16))
    }

    /// The same in the memory of a vector, for lists that nest at most `max_depth` deep.
    ///
    /// ```
    /// use rlp_proved::{DecoderError, Tree};
    /// let items = Tree::new(&[0xc2, 5, 6])?.into_items();
    /// assert_eq!(Tree::reusing(&[0xc1, 7], 9, items)?.root().val_at::<u8>(0), Ok(7));
    /// assert_eq!(Tree::reusing(&[0xc1, 7], 0, vec![]).err(), Some(DecoderError::RlpTooDeep));
    /// # Ok::<(), DecoderError>(())
    /// ```
    pub fn reusing(
        bytes: &'a [u8],
        max_depth: u32,
        mut items: Vec<Item>,
    ) -> Result<Tree<'a>, DecoderError> {
        items.clear();
        flatten_into(bytes, max_depth, &mut items)?;
        Ok(Tree { bytes, items })
    }

    /// Returns the item that all others are in.
    ///
    /// ```
    /// assert!(rlp_proved::Tree::new(&[0xc0])?.root().is_list());
    /// # Ok::<(), rlp_proved::DecoderError>(())
    /// ```
    pub fn root(&self) -> Rlp<'_> {
        Rlp {
            bytes: self.bytes,
            items: &self.items,
        }
    }

    /// Returns all items, each before the items in it.
    ///
    /// ```
    /// assert_eq!(rlp_proved::Tree::new(&[0xc2, 5, 6])?.items().len(), 3);
    /// # Ok::<(), rlp_proved::DecoderError>(())
    /// ```
    pub fn items(&self) -> &[Item] {
        &self.items
    }

    /// Returns the vector of all items.
    ///
    /// ```
    /// assert_eq!(rlp_proved::Tree::new(&[0xc2, 5, 6])?.into_items().len(), 3);
    /// # Ok::<(), rlp_proved::DecoderError>(())
    /// ```
    pub fn into_items(self) -> Vec<Item> {
        self.items
    }
}

/// An item of a tree.
#[derive(Clone, Copy)]
pub struct Rlp<'a> {
    bytes: &'a [u8],
    /// The item, and then those in it; others may follow.
    items: &'a [Item],
}

impl<'a> Rlp<'a> {
    /// Returns where the item is in the bytes of the tree.
    ///
    /// ```
    /// assert_eq!(rlp_proved::Tree::new(&[0xc2, 5, 6])?.root().at(1)?.item().offset, 2);
    /// # Ok::<(), rlp_proved::DecoderError>(())
    /// ```
    pub fn item(&self) -> Item {
        self.items[0]
    }

    /// Returns the encoding.
    ///
    /// ```
    /// assert_eq!(rlp_proved::Tree::new(b"\xc4\x83cat")?.root().at(0)?.as_raw(), b"\x83cat");
    /// # Ok::<(), rlp_proved::DecoderError>(())
    /// ```
    pub fn as_raw(&self) -> &'a [u8] {
        self.item().as_raw(self.bytes)
    }

    /// Returns the payload: the string, or the encodings of the list's items.
    ///
    /// ```
    /// assert_eq!(rlp_proved::Tree::new(b"\x83cat")?.root().data(), b"cat");
    /// # Ok::<(), rlp_proved::DecoderError>(())
    /// ```
    pub fn data(&self) -> &'a [u8] {
        self.item().payload(self.bytes)
    }

    /// Returns whether the item is a list.
    ///
    /// ```
    /// assert!(rlp_proved::Tree::new(&[0xc0])?.root().is_list());
    /// # Ok::<(), rlp_proved::DecoderError>(())
    /// ```
    pub fn is_list(&self) -> bool {
        self.item().is_list()
    }

    /// Returns whether the item is a string.
    ///
    /// ```
    /// assert!(rlp_proved::Tree::new(&[0x80])?.root().is_data());
    /// # Ok::<(), rlp_proved::DecoderError>(())
    /// ```
    pub fn is_data(&self) -> bool {
        !self.is_list()
    }

    /// Returns whether the item is the empty string or the empty list.
    ///
    /// ```
    /// assert!(rlp_proved::Tree::new(&[0x80])?.root().is_empty());
    /// # Ok::<(), rlp_proved::DecoderError>(())
    /// ```
    pub fn is_empty(&self) -> bool {
        self.item().payload_len == 0
    }

    /// Returns the number of items of the list.
    ///
    /// ```
    /// assert_eq!(rlp_proved::Tree::new(&[0xc3, 5, 0xc1, 6])?.root().item_count(), Ok(2));
    /// # Ok::<(), rlp_proved::DecoderError>(())
    /// ```
    pub fn item_count(&self) -> Result<usize, DecoderError> {
        if self.is_data() {
            return Err(DecoderError::RlpExpectedToBeList);
        }
        Ok(self.iter().count())
    }

    /// Returns an item of the list. Fails with [`RlpIsTooShort`](DecoderError::RlpIsTooShort) if
    /// the list has fewer.
    ///
    /// ```
    /// assert_eq!(rlp_proved::Tree::new(&[0xc2, 5, 6])?.root().at(1)?.as_val::<u8>(), Ok(6));
    /// # Ok::<(), rlp_proved::DecoderError>(())
    /// ```
    pub fn at(&self, index: usize) -> Result<Rlp<'a>, DecoderError> {
        if self.is_data() {
            return Err(DecoderError::RlpExpectedToBeList);
        }
        self.iter().nth(index).ok_or(DecoderError::RlpIsTooShort)
    }

    /// Reads the item as a value.
    ///
    /// ```
    /// assert_eq!(rlp_proved::Tree::new(&[0x82, 3, 0xe8])?.root().as_val::<u16>(), Ok(1000));
    /// # Ok::<(), rlp_proved::DecoderError>(())
    /// ```
    pub fn as_val<T: Decodable<'a>>(&self) -> Result<T, DecoderError> {
        T::decode(self.as_raw(), Mode::Strict)
    }

    /// Reads an item of the list as a value.
    ///
    /// ```
    /// assert_eq!(rlp_proved::Tree::new(&[0xc2, 5, 6])?.root().val_at::<u8>(1), Ok(6));
    /// # Ok::<(), rlp_proved::DecoderError>(())
    /// ```
    pub fn val_at<T: Decodable<'a>>(&self, index: usize) -> Result<T, DecoderError> {
        self.at(index)?.as_val()
    }

    /// Returns an iterator over the items of the list. A string has none.
    ///
    /// ```
    /// let tree = rlp_proved::Tree::new(&[0xc3, 5, 0xc1, 6])?;
    /// let kinds: Vec<bool> = tree.root().iter().map(|item| item.is_list()).collect();
    /// assert_eq!(kinds, [false, true]);
    /// # Ok::<(), rlp_proved::DecoderError>(())
    /// ```
    pub fn iter(&self) -> RlpIterator<'a> {
        RlpIterator {
            bytes: self.bytes,
            items: &self.items[1..],
            end: self.item().end(),
        }
    }
}

/// Prints strings as digits and lists in brackets.
///
/// ```
/// let tree = rlp_proved::Tree::new(b"\xc6\x83cat\x05\xc0")?;
/// assert_eq!(tree.root().to_string(), r#"["0x636174", "0x05", []]"#);
/// # Ok::<(), rlp_proved::DecoderError>(())
/// ```
impl fmt::Display for Rlp<'_> {
    fn fmt(&self, f: &mut fmt::Formatter<'_>) -> fmt::Result {
        f.write_str(&text(self.as_raw()).expect("an item of a tree isn't too deep"))
    }
}

impl fmt::Debug for Rlp<'_> {
    fn fmt(&self, f: &mut fmt::Formatter<'_>) -> fmt::Result {
        fmt::Display::fmt(self, f)
    }
}

impl<'a> IntoIterator for Rlp<'a> {
    type Item = Rlp<'a>;
    type IntoIter = RlpIterator<'a>;

    fn into_iter(self) -> RlpIterator<'a> {
        self.iter()
    }
}

/// The items of a list that are left.
#[derive(Clone, Debug)]
pub struct RlpIterator<'a> {
    bytes: &'a [u8],
    items: &'a [Item],
    /// Where the list ends.
    end: usize,
}

impl<'a> Iterator for RlpIterator<'a> {
    type Item = Rlp<'a>;

    fn next(&mut self) -> Option<Rlp<'a>> {
        let first = self.items.first().filter(|first| first.offset < self.end)?;
        let next = Rlp {
            bytes: self.bytes,
            items: self.items,
        };
        let inside = &self.items[1..];
        let skipped = if first.is_list() {
            inside.partition_point(|item| item.offset < first.end())
        } else {
            0
        };
        self.items = &inside[skipped..];
        Some(next)
    }
}
