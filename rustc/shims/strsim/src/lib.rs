//! Rust's `strsim`, with the allocator that Rattle's port takes.

use kit::alloc::{AllocError, Global};
use kit::heap::needing;

pub fn levenshtein(_alloc: Global, one: &str, other: &str) -> Result<usize, AllocError> {
    Ok(needing(|| of_rust::levenshtein(one, other)))
}
