//! Safe Rust over `librlp.a`, a library for the Recursive Length Prefix format of Ethereum whose
//! functions are proved to answer as `rlp.h` states. Names are those of the crate `rlp` where they
//! fit.
//!
//! ```
//! use rlp_proved::{RlpStream, Tree};
//!
//! let mut stream = RlpStream::new();
//! stream.begin_unbounded_list().append(b"cat").append(&1000u16).finalize_unbounded_list();
//! let bytes = stream.out()?;
//! assert_eq!(bytes, b"\xc7\x83cat\x82\x03\xe8");
//!
//! let tree = Tree::new(&bytes)?;
//! let fields: Vec<_> = tree.root().iter().map(|field| field.data()).collect();
//! assert_eq!(fields, [b"cat".as_slice(), b"\x03\xe8"]);
//! assert_eq!(tree.root().val_at::<u16>(1), Ok(1000));
//! # Ok::<(), rlp_proved::DecoderError>(())
//! ```

mod error;
mod fill;
mod item;
mod places;
mod raw;
mod records;
mod stream;
mod tree;
mod values;
mod writing;

pub use error::DecoderError;
pub use item::Item;
pub use places::{flatten_into, header, is_canonical, split_into, DEPTH_LIMIT};
pub use records::{header_fields_into, transaction_into, FieldError};
pub use stream::{Encodable, RlpStream};
pub use tree::{Rlp, RlpIterator, Tree};
pub use values::{decode, decode_bytes, decode_strict, decode_u64, decode_uint, Decodable, Mode};
pub use writing::{append_bytes, append_header, append_u64, encode, encode_into, text};
