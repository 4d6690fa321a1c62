//! What C hands over: lists, each of them a pointer and a length, and bytes that others may write.

use ::std::marker::PhantomData;
use ::std::ops::Deref;
use ::std::slice;
use ::std::sync::atomic::{AtomicU8, Ordering::Relaxed};

/// What the library's version has besides its numbers, as `CHANV_NOT_PROVED` of chanv.h.
pub const NOT_PROVED: u32 = 1 << 31;

/// A list in a struct of C. Without rows it may be at `NULL`.
#[repr(C)]
pub struct List<'a, T> {
    at: *const T,
    len: usize,
    rows: PhantomData<&'a [T]>,
}

impl<T> Clone for List<'_, T> {
    fn clone(&self) -> Self {
        *self
    }
}

impl<T> Copy for List<'_, T> {}

impl<'a, T> List<'a, T> {
    pub fn of(rows: &'a [T]) -> List<'a, T> {
        List { at: rows.as_ptr(), len: rows.len(), rows: PhantomData }
    }

    /// A list of rows that stay in memory: a literal's, of which only unit tests have some.
    pub fn leaked<const N: usize>(rows: [T; N]) -> List<'a, T> {
        List::of(Box::leak(Box::new(rows)))
    }

    pub fn rows(self) -> &'a [T] {
        // SAFETY: a list is one of Rust's, or C's, which keeps the rules of chanv.h.
        unsafe { list(self.at, self.len) }
    }
}

impl<T> Deref for List<'_, T> {
    type Target = [T];

    fn deref(&self) -> &[T] {
        self.rows()
    }
}

/// A list that a call of C is given.
///
/// # Safety
///
/// `len` rows are at `at`, as chanv.h says.
pub unsafe fn list<'a, T>(at: *const T, len: usize) -> &'a [T] {
    if len == 0 { &[] } else { unsafe { slice::from_raw_parts(at, len) } }
}

/// The room for a list that a call of C writes.
///
/// # Safety
///
/// There is room for `len` rows at `at`, as chanv.h says, and nothing else refers to it.
pub unsafe fn room<'a, T>(at: *mut T, len: usize) -> &'a mut [T] {
    if len == 0 { &mut [] } else { unsafe { slice::from_raw_parts_mut(at, len) } }
}

/// Copies bytes that others may write meanwhile. Each is read once.
pub fn copy(into: &mut [u8], bytes: &[u8]) {
    ::core::assert_eq!(into.len(), bytes.len());
    for (into, byte) in into.iter_mut().zip(bytes) {
        // SAFETY: the byte is there, and a relaxed load of a byte doesn't write.
        *into = unsafe { &*::std::ptr::from_ref(byte).cast::<AtomicU8>() }.load(Relaxed);
    }
}
