//! Rust's `hex`, with the allocator that Rattle's port takes.

use kit::alloc::{AllocError, Global};
use kit::prelude::*;
pub use of_rust::{FromHex, FromHexError, decode_to_slice, encode_to_slice};

pub fn encode_upper<T: AsRef<[u8]>>(alloc: Global, bytes: T) -> Result<String, AllocError> {
    let bytes = bytes.as_ref();
    let mut digits = Vec::filled(alloc, 0, 2 * bytes.len())?;
    encode_to_slice(bytes, &mut digits).map_err(|_| AllocError)?;
    digits.make_ascii_uppercase();
    String::from_utf8(digits).map_err(|_| AllocError)
}
