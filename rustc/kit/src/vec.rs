//! `Vec`, each of whose calls that may allocate returns a `Result`.

use crate::alloc::{AllocError, AllocFailed, Global};
use ::std::io;
use ::std::ops::{Deref, DerefMut};

#[derive(Debug, PartialEq, Eq)]
pub struct Vec<T>(pub(crate) ::std::vec::Vec<T>);

impl<T> Vec<T> {
    pub fn new(_alloc: Global) -> Vec<T> {
        Vec(::std::vec::Vec::new())
    }

    pub fn from_array<const N: usize>(alloc: Global, items: [T; N]) -> Result<Vec<T>, AllocError> {
        let mut made = Vec::new(alloc);
        made.reserve(N)?;
        made.0.extend(items);
        Ok(made)
    }

    pub fn with_capacity(alloc: Global, room: usize) -> Result<Vec<T>, AllocError> {
        let mut made = Vec::new(alloc);
        made.reserve(room)?;
        Ok(made)
    }

    /// Sorts by keys, each of which is made once.
    pub fn sort_by_cached_key<K: Ord, F: FnMut(&T) -> K>(
        &mut self,
        mut key_of: F,
    ) -> Result<(), AllocError> {
        let mut keys = ::std::vec::Vec::new();
        keys.try_reserve_exact(self.0.len()).map_err(|_| AllocError)?;
        keys.extend(self.0.iter().enumerate().map(|(at, item)| (key_of(item), at)));
        keys.sort_unstable();
        for at in 0..keys.len() {
            // What stood there before may have moved on.
            let mut from = keys[at].1;
            while from < at {
                from = keys[from].1;
            }
            keys[at].1 = from;
            self.0.swap(at, from);
        }
        Ok(())
    }

    pub(crate) fn reserve(&mut self, more: usize) -> Result<(), AllocError> {
        self.0.try_reserve(more).map_err(|_| AllocError)
    }

    pub fn push(&mut self, value: T) -> Result<(), AllocFailed<T>> {
        if self.0.len() == self.0.capacity() && self.reserve(1).is_err() {
            return Err(AllocFailed { value });
        }
        self.0.push(value);
        Ok(())
    }

    pub fn insert(&mut self, at: usize, value: T) -> Result<(), AllocFailed<T>> {
        if self.reserve(1).is_err() {
            return Err(AllocFailed { value });
        }
        self.0.insert(at, value);
        Ok(())
    }

    pub(crate) fn split_off(&mut self, at: usize) -> Result<Vec<T>, AllocError> {
        let mut rest = Vec::new(Global);
        rest.reserve(self.0.len() - at)?;
        rest.0.extend(self.0.drain(at..));
        Ok(rest)
    }

    pub fn pop(&mut self) -> Option<T> {
        self.0.pop()
    }

    pub fn truncate(&mut self, len: usize) {
        self.0.truncate(len);
    }

    pub fn clear(&mut self) {
        self.0.clear();
    }

    pub fn as_slice(&self) -> &[T] {
        &self.0
    }

    pub fn as_mut_slice(&mut self) -> &mut [T] {
        &mut self.0
    }
}

impl<T: Copy> Vec<T> {
    pub fn filled(alloc: Global, item: T, count: usize) -> Result<Vec<T>, AllocError> {
        let mut made = Vec::new(alloc);
        made.resize(count, item)?;
        Ok(made)
    }

    pub fn from_slice(alloc: Global, items: &[T]) -> Result<Vec<T>, AllocError> {
        let mut made = Vec::new(alloc);
        made.extend_from_slice(items)?;
        Ok(made)
    }

    pub fn extend_from_slice(&mut self, items: &[T]) -> Result<(), AllocError> {
        self.reserve(items.len())?;
        self.0.extend_from_slice(items);
        Ok(())
    }

    pub fn resize(&mut self, len: usize, value: T) -> Result<(), AllocError> {
        self.reserve(len.saturating_sub(self.0.len()))?;
        self.0.resize(len, value);
        Ok(())
    }
}

impl<T: PartialEq> Vec<T> {
    pub fn dedup(&mut self) {
        self.0.dedup();
    }
}

impl<T> Deref for Vec<T> {
    type Target = [T];

    fn deref(&self) -> &[T] {
        &self.0
    }
}

impl<T> DerefMut for Vec<T> {
    fn deref_mut(&mut self) -> &mut [T] {
        &mut self.0
    }
}

impl<'a, T> IntoIterator for &'a Vec<T> {
    type Item = &'a T;
    type IntoIter = ::std::slice::Iter<'a, T>;

    fn into_iter(self) -> Self::IntoIter {
        self.0.iter()
    }
}

impl<T> IntoIterator for Vec<T> {
    type Item = T;
    type IntoIter = ::std::vec::IntoIter<T>;

    fn into_iter(self) -> Self::IntoIter {
        self.0.into_iter()
    }
}

impl<T> From<Vec<T>> for ::std::vec::Vec<T> {
    fn from(items: Vec<T>) -> Self {
        items.0
    }
}

impl<T> From<::std::vec::Vec<T>> for Vec<T> {
    fn from(items: ::std::vec::Vec<T>) -> Self {
        Vec(items)
    }
}

impl io::Write for Vec<u8> {
    fn write(&mut self, bytes: &[u8]) -> io::Result<usize> {
        match self.extend_from_slice(bytes) {
            Ok(()) => Ok(bytes.len()),
            Err(AllocError) => Err(io::ErrorKind::OutOfMemory.into()),
        }
    }

    fn flush(&mut self) -> io::Result<()> {
        Ok(())
    }
}
