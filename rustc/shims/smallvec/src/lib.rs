//! Rust's `smallvec`, with the allocator and the errors of Rattle's port.

use kit::alloc::{AllocError, AllocFailed, Global};
use kit::prelude::*;
use std::ops::{Deref, DerefMut};

/// A list that keeps up to `N` elements in the value, and more in an allocation.
#[derive(Debug, PartialEq, Eq)]
pub struct SmallVec<T, const N: usize>(of_rust::SmallVec<[T; N]>);

impl<T, const N: usize> SmallVec<T, N> {
    pub fn new(_alloc: Global) -> Self {
        SmallVec(of_rust::SmallVec::new())
    }

    pub fn from_vec(items: Vec<T>) -> Self {
        SmallVec(of_rust::SmallVec::from_vec(items.into()))
    }

    /// Allocates only if the elements are in the value.
    pub fn into_vec(self) -> Result<Vec<T>, AllocFailed<Self>> {
        if self.0.spilled() {
            return Ok(self.0.into_vec().into());
        }
        let mut made = std::vec::Vec::new();
        if made.try_reserve_exact(self.len()).is_err() {
            return Err(AllocFailed { value: self });
        }
        made.extend(self.0);
        Ok(made.into())
    }

    fn reserve(&mut self, more: usize) -> Result<(), AllocError> {
        self.0.try_reserve(more).map_err(|_| AllocError)
    }

    pub fn push(&mut self, value: T) -> Result<(), AllocFailed<T>> {
        if self.0.len() == self.0.capacity() && self.reserve(1).is_err() {
            return Err(AllocFailed { value });
        }
        self.0.push(value);
        Ok(())
    }

    pub fn dedup_by<F: FnMut(&mut T, &mut T) -> bool>(&mut self, same_bucket: F) {
        self.0.dedup_by(same_bucket);
    }

    pub fn clear(&mut self) {
        self.0.clear();
    }

    pub fn as_slice(&self) -> &[T] {
        &self.0
    }

    pub fn as_mut_slice(&mut self) -> &mut [T] {
        &mut self.0
    }
}

impl<T: Copy, const N: usize> SmallVec<T, N> {
    pub fn extend_from_slice(&mut self, items: &[T]) -> Result<(), AllocError> {
        self.reserve(items.len())?;
        self.0.extend_from_slice(items);
        Ok(())
    }

    pub fn resize(&mut self, len: usize, value: T) -> Result<(), AllocError> {
        self.reserve(len.saturating_sub(self.len()))?;
        self.0.resize(len, value);
        Ok(())
    }
}

impl<T, const N: usize> Deref for SmallVec<T, N> {
    type Target = [T];

    fn deref(&self) -> &[T] {
        &self.0
    }
}

impl<T, const N: usize> DerefMut for SmallVec<T, N> {
    fn deref_mut(&mut self) -> &mut [T] {
        &mut self.0
    }
}

impl<'a, T, const N: usize> IntoIterator for &'a SmallVec<T, N> {
    type Item = &'a T;
    type IntoIter = std::slice::Iter<'a, T>;

    fn into_iter(self) -> Self::IntoIter {
        self.0.iter()
    }
}
